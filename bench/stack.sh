#!/bin/sh
# Runs 40,000,000 rounds through 32 levels of nesting, at fuel 4,294,967,295, on a stack of 256 KiB.
set -eu
cd "$(dirname "$0")/.."
tools/staticlib.sh
cargo build --release --offline --quiet --manifest-path bench/Cargo.toml --target-dir target/bench
ulimit -s 256
exec target/bench/release/bench stack "${1:-40000000}"
