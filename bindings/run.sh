#!/bin/sh
# bindings/run.sh: builds the static library and the Rust crate over it, and runs its tests and doc examples.
set -eu
unset CDPATH
cd "$(dirname "$0")/.."
HRBOTAJ_LIB=$(./staticlib capi)
export HRBOTAJ_LIB
cd bindings
cargo test --offline --quiet
