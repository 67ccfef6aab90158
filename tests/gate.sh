#!/bin/sh
# tests/gate.sh: ./test tells the truth. Runs a copy of it in a folder of its own, over an `rt` and steps that only say
# whether they pass, and looks at its last line and its status.
set -eu
unset CDPATH
cd "$(dirname "$0")/.."
work=$(mktemp -d)
trap 'rm -rf "$work"' EXIT
tree=$work/tree
mkdir -p "$work/bin" "$tree/compare/gemlab" "$work/gemlab/src"
cp test "$tree"
cp compare/source "$tree/compare"
cp compare/gemlab/lib.rs "$tree/compare/gemlab"
sed -n 's/.*env!("GEMLAB"), "\/\(.*\)").*/\1/p' compare/gemlab/lib.rs | while read -r file; do
    mkdir -p "$work/gemlab/$(dirname "$file")"
    : >"$work/gemlab/$file"
done

# Each step is called by the name of its file, and fails where $FAIL has that name.
stub() {
    mkdir -p "$(dirname "$1")"
    {
        echo '#!/bin/sh'
        echo 'name=$(basename "$(dirname "$0")")/$(basename "$0")'
        # shellcheck disable=SC2016
        echo 'case " ${FAIL-} " in *" $name "*) exit 1 ;; esac'
        echo "$2"
    } >"$1"
    chmod +x "$1"
}
steps=$(sed -n "s/^step .* \([a-z]*\/[a-z]*\.sh\)\$/\1/p" test)
for step in $steps staticlib; do
    stub "$tree/$step" 'echo said'
done
# shellcheck disable=SC2016
stub "$work/bin/rt" 'echo "${TOLD-rt: ok; handles allowed: none; must-fail edits: 10 refused; every proof was done}"
echo "${SAYS-3 passed, 0 failed}"; echo "$*" >>"${CALLS-/dev/null}"'
failed=0

# gives STATUS LINE [VARIABLE=VALUE..]: what ./test has to end with.
gives() {
    status=$1 line=$2
    shift 2
    got=0
    env PATH="$work/bin:$PATH" GEMLAB_SRC="$work/gemlab" "$@" "$tree/test" >"$work/out" 2>&1 || got=$?
    if [ "$got" -ne "$status" ] || [ "$(tail -n 1 "$work/out")" != "$line" ]; then
        echo "gate: $*: status $got, and not $status with '$line':"
        cat "$work/out"
        failed=1
    fi
}

# The name of a step in ./test.
called() {
    sed -n "s/^step [\"']\(.*\)[\"'] $(echo "$1" | sed 's/[/.]/\\&/g')\$/\1/p" test
}

gives 0 '3 passed, 0 failed'
count=0
for step in $steps; do
    gives 1 "test: FAILED: $(called "$step")" "FAIL=$step"
    count=$((count + 1))
done
gives 1 "test: FAILED: $(called tests/public.sh), $(called examples/run.sh)" 'FAIL=tests/public.sh examples/run.sh'
gives 1 'test: FAILED: static libraries' 'FAIL=./staticlib'
gives 1 "test: FAILED: $(called verdict)" 'SAYS=3 passed, 1 failed'
gives 1 "test: FAILED: $(called verdict)" 'SAYS=0 passed, 0 failed'
gives 1 "test: FAILED: $(called verdict)" 'FAIL=bin/rt'
gives 1 "test: FAILED: $(called verdict)" 'SAYS=3 passed, 0 failed (floats alone)'
# edits that are bad, and a verdict that says nothing of them
ok='rt: ok; handles allowed: none; must-fail edits: 10 refused'
gives 0 '3 passed, 0 failed' "TOLD=$ok, 2 of them only by a limit; every proof was done"
for bad in 1 10; do
    gives 1 "test: FAILED: $(called verdict)" "TOLD=$ok, $bad bad; every proof was done"
    gives 1 "test: FAILED: $(called verdict)" "TOLD=$ok, 2 of them only by a limit, $bad bad; every proof was done"
done
gives 1 "test: FAILED: $(called verdict)" 'TOLD=rt: FAILED: floats'
# rt ci is called once, for every crate, and before any other rt
: >"$work/calls"
gives 0 '3 passed, 0 failed' "CALLS=$work/calls"
[ "$(cat "$work/calls")" = ci ] || {
    echo "gate: rt was called otherwise: $(cat "$work/calls")"
    failed=1
}
# gemlab's source is looked for before anything is proved
for folder in "$work/gemlab/src" "$work/none"; do
    : >"$work/calls"
    gives 1 "test: FAILED: gemlab's source" "GEMLAB_SRC=$folder" "CALLS=$work/calls"
    [ ! -s "$work/calls" ] || {
        echo "gate: rt was called: $(cat "$work/calls")"
        failed=1
    }
done
[ "$count" -ge 8 ] || {
    echo "gate: only $count steps were found in ./test"
    failed=1
}
[ "$failed" -eq 0 ] && echo "gate: ./test ends with what failed, for each of $count steps and for rt ci"
exit $failed
