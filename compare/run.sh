#!/bin/sh
# Compares the port, linked in as its proved static library, with the evaluator and builder of this folder, and its
# additions on the board with this processor's.
#
#     compare/run.sh [N [SEED]]     first what was printed by last year's rule, systematic jobs under step
#                                   limits, by both evaluations, with several fill words and asked for
#                                   their least fuel, and additions, then N jobs (100,000) from SEED (a new
#                                   one), then lists of builder calls, a tenth as many but at least 1,000,
#                                   then as many lists of cells and their splits
set -eu
cd "$(dirname "$0")/.."
tools/staticlib.sh
cargo build --release --offline --quiet --features c_target --manifest-path compare/Cargo.toml --target-dir target/compare
target/compare/release/compare selfcheck
target/compare/release/compare check crates/jobs_main/data/last-years-rule last-year
target/compare/release/compare limited c
target/compare/release/compare sums c
target/compare/release/compare watched c
target/compare/release/compare fuelled c
${CC:-cc} -std=c11 -O2 -Wall -Wextra -Werror -Iinclude compare/processor.c target/staticlib/libcapi.a -o target/processor
jobs="${1:-100000}"
seed="${2:-new}"
target/processor "$seed"
target/compare/release/compare batch "$jobs" "$seed" c
lists=$((jobs / 10))
[ "$lists" -ge 1000 ] || lists=1000
target/compare/release/compare builds "$lists" "$seed"
exec target/compare/release/compare cells "$lists" "$seed"
