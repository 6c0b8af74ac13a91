#!/bin/sh
# Proves the C interface and what it stands on, and writes target/staticlib/libcapi.a.
set -eu
cd "$(dirname "$0")/../crates/capi"
rt lib
mkdir -p ../../target/staticlib
cp out/libcapi.a ../../target/staticlib/libcapi.a
