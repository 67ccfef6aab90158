#!/bin/sh
# examples/run.sh: builds the static library and the C programs over it, with warnings as errors, and runs each of them:
# as it is, under AddressSanitizer and UndefinedBehaviorSanitizer, and with 256 KiB of stack. Each run has to write what the
# file beside the program has. The sanitizers are left out for threads.c, whose threads have just the stack that a call takes.
set -eu
unset CDPATH
cd "$(dirname "$0")/.."
lib=$(./staticlib capi)
out=$(mktemp -d)
trap 'rm -rf "$out"' EXIT

build() {
    program=$1
    shift
    gcc -std=c99 -Wpedantic -Wall -Wextra -Wconversion -Werror -Iinclude "$@" "examples/$program.c" "$lib/libcapi.a"
}

# writes EXPECTED COMMAND..
writes() {
    expected=$1
    shift
    "$@" >"$out/stdout"
    diff "examples/$expected" "$out/stdout"
}

# tried PROGRAM EXPECTED
tried() {
    build "$1" -O2 -o "$out/$1"
    writes "$2" "$out/$1"
    # shellcheck disable=SC3045
    (ulimit -s 256 && writes "$2" "$out/$1")
    echo "examples: $1.c writes what examples/$2 has, also with 256 KiB of stack"
}

# checked PROGRAM EXPECTED
checked() {
    build "$1" -O1 -g -fsanitize=address,undefined -fno-sanitize-recover=all -o "$out/$1-checked"
    writes "$2" "$out/$1-checked"
    echo "examples: $1.c writes it under the sanitizers"
}

# Nothing is kept between calls: there is no memory to keep it in.
size "$lib/libcapi.a" | awk 'NR > 1 { kept += $2 + $3 } END { exit NR < 2 || kept != 0 }' || {
    echo "examples: libcapi.a has memory of its own:"
    size "$lib/libcapi.a"
    exit 1
}

tried gemlab gemlab.stdout
tried survey survey.expected
tried edges edges.stdout
tried cell_edges cell_edges.stdout
tried text_edges text_edges.stdout
tried threads threads.stdout
checked gemlab gemlab.stdout
checked survey survey.expected
checked edges edges.stdout
checked cell_edges cell_edges.stdout
checked text_edges text_edges.stdout
