#!/bin/sh
# tests/catalogue.sh: proves and builds the program `catalogue` where it is not that of the present files, runs it on each case
# of tests/catalogue.cases and compares what it prints, byte for byte; a run may take 20 seconds. docs/STORED.md says where the
# cases come from. Then it is run on a pipe, and where its text cannot be written.
set -eu
unset CDPATH
cd "$(dirname "$0")/.."
exec 3>&1
cases=$PWD/tests/catalogue.cases
program=$PWD/crates/catalogue/out/catalogue
data=$PWD/crates/catalogue/data
said=$(cd crates/catalogue && rt run 2>&1 >/dev/null </dev/null) || {
    echo "$said"
    exit 1
}
work=$(mktemp -d)
trap 'rm -rf "$work"' EXIT
mkdir "$work/in"
cd "$work/in"
name=
run=0
failed=0

# Runs the program. Where it takes too long, the test ends.
limited() {
    status=0
    timeout 20 "$program" || status=$?
    case $status in
    0) ;;
    124)
        echo "catalogue: $name: no end within 20 seconds" >&3
        exit 1
        ;;
    *) echo "exit status $status" >&2 ;;
    esac
}

# Judges the case that was read.
judge() {
    [ -n "$name" ] || return 0
    run=$((run + 1))
    limited >../out 2>../err
    if ! cmp -s ../out ../expected || [ -s ../err ]; then
        echo "catalogue: $name: expected, then printed:"
        cat ../expected ../out ../err
        failed=$((failed + 1))
    fi
}

# Appends bytes, given in hexadecimal, to a file: 2^$2 times.
append() {
    # shellcheck disable=SC2059
    printf "$(echo "$3" | fold -w 2 | awk '/./ {
        d = "0123456789abcdef"
        printf "\\%03o", 16 * (index(d, substr($0, 1, 1)) - 1) + index(d, substr($0, 2, 1)) - 1
    }')" >../piece
    n=$2
    while [ "$n" -gt 0 ]; do
        cat ../piece ../piece >../twice
        mv ../twice ../piece
        n=$((n - 1))
    done
    cat ../piece >>"$1.bin"
}

while IFS= read -r line; do
    case $line in
    'case '*)
        judge
        name=${line#case }
        rm -rf sheet.bin marks.bin
        : >../expected
        ;;
    '> '*) printf '%s\n' "${line#> }" >>../expected ;;
    'sheet folder' | 'marks folder') mkdir "${line% folder}.bin" ;;
    'sheet '* | 'marks '*)
        # shellcheck disable=SC2086
        set -- $line
        append "$1" "$2" "${3-}"
        ;;
    esac
done <"$cases"
judge

# Document 01's sample with marks that come through a pipe, a byte more or less than a record at a time.
name='marks from a pipe'
rm -rf sheet.bin marks.bin
cp "$data/sheet.bin" .
mkfifo marks.bin
{ head -c 33 "$data/marks.bin" && sleep 0.1 && tail -c +34 "$data/marks.bin"; } >marks.bin &
cp "$data/../stdout" ../expected
judge
wait
rm marks.bin
cp "$data/marks.bin" .

# What it said on standard error where nothing took its text.
unwritten() {
    run=$((run + 1))
    echo 'catalogue: the text could not be written whole' | cmp -s - ../err || {
        echo "catalogue: $name: said on standard error:"
        cat ../err
        failed=$((failed + 1))
    }
}
name='no space for the text'
limited >/dev/full 2>../err
unwritten
name='standard output is closed'
limited >&- 2>../err
unwritten

echo "catalogue: $run cases, $failed differ"
[ "$run" -gt 0 ] && [ "$failed" -eq 0 ]
