#!/bin/sh
# Times the proved evaluator beside two interpreters in one run, measures its stack and its size, and writes
# docs/COST.md and docs/cost.svg. `bench/run.sh quick` takes fewer steps and writes nothing into docs.
#
# POKCHREI_STATICLIB may name the folder of another libcapi.a. That is taken as it is, proved or not, and so nothing is
# written into docs.
set -eu
cd "$(dirname "$0")/.."
pages=target
if [ -z "${POKCHREI_STATICLIB:-}" ]; then
    tools/staticlib.sh
    if [ $# -eq 0 ]; then pages=docs; fi
fi
cargo build --release --offline --quiet --manifest-path bench/Cargo.toml --target-dir target/bench
jobs=crates/jobs_main/data
target/bench/release/bench agree "$jobs/systematic" "$jobs/random" "$jobs/scales" "$jobs/last-years-rule"
target/bench/release/bench "$@" >target/cost.tsv
python3 bench/size.py "${POKCHREI_STATICLIB:-target/staticlib}/libcapi.a" >>target/cost.tsv
python3 bench/plot.py target/cost.tsv "$pages/COST.md" "$pages/cost.svg"
cat target/cost.tsv
