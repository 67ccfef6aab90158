#!/bin/sh
# compare/run.sh [PART..]: builds the static libraries and the comparison, and runs it. Without a part, it also checks
# that gemlab still gives the answers that are stored in this repository (docs/STORED.md).
# GEMLAB_SRC names the folder that holds gemlab's src/, where that is not ../shared/docs/src from the repository's root.
set -eu
unset CDPATH
GEMLAB_SRC=$("$(dirname "$0")"/source)
export GEMLAB_SRC
cd "$(dirname "$0")/.."
HRBOTAJ_LIB=$(./staticlib probe capi)
export HRBOTAJ_LIB
cd compare
cargo build --release --offline --quiet
failed=0
[ $# -gt 0 ] || target/release/stored check || failed=1
target/release/compare "$@" || failed=1
exit $failed
