#!/bin/sh
# tests/records.sh: ./records makes the files of the catalogue from text and shows what is in them. What is shown of a file gives
# its bytes again, whatever they are; text that is wrong is refused with its line, and then nothing is written.
set -eu
unset CDPATH
cd "$(dirname "$0")/.."
root=$PWD
data=$root/crates/catalogue/data
work=$(mktemp -d)
trap 'rm -rf "$work"' EXIT
cd "$work"
tried=0
failed=0

wrong() {
    echo "records: $1"
    failed=$((failed + 1))
}

# same NAME A B
same() {
    tried=$((tried + 1))
    cmp -s "$2" "$3" || {
        wrong "$1: these differ:"
        cat "$2" "$3"
    }
}

# ---- document 01's sample, from text to what the catalogue prints

mkdir sample
cat >sample/sheet.txt <<'TEXT'
# dimension and low corner, divisions and high corner
2  0 0 0
8  8 4 0
TEXT
printf '3 3.5 2.5 0\r\n\n\t7\t2.00005   .5 0e5' >sample/marks.txt
"$root/records" pack sample
same 'the sheet of the sample' sample/sheet.bin "$data/sheet.bin"
same 'the marks of the sample' sample/marks.bin "$data/marks.bin"
"$root/run" sample >printed
same 'what the catalogue prints of it' printed "$root/crates/catalogue/stdout"
"$root/records" show "$data/marks.bin" >shown
printf '3  3.5 2.5 0\n7  2.00005 0.5 0\n' >expected
same 'the sample as it is shown' shown expected
"$root/records" pack <shown >bytes
same 'standard input and output' bytes "$data/marks.bin"

# ---- what is shown gives the same bytes

# there_and_back NAME FILE
there_and_back() {
    "$root/records" show "$2" >shown
    "$root/records" pack <shown >bytes
    tried=$((tried + 1))
    cmp -s "$2" bytes || wrong "$1: other bytes come back"
    "$root/records" show <"$2" >again
    same "$1, from standard input" shown again
}

for n in 0 1 31 32 33 63 64 65 4095 4096 320000 320017; do
    head -c "$n" /dev/urandom >random
    there_and_back "$n random bytes" random
done

# Floats at the edges, by bit patterns with the highest byte first: zeros, the least and the largest of each kind, infinities,
# NaNs of either sign, quiet and signalling; and how each is shown.
while read -r bits text; do
    low=$(echo "$bits" | sed 's/\(..\)\(..\)\(..\)\(..\)\(..\)\(..\)\(..\)\(..\)/\8 \7 \6 \5 \4 \3 \2 \1/')
    : >float
    for byte in 00 00 00 00 00 00 00 00 $low $low $low; do
        # shellcheck disable=SC2059
        printf "\\$(printf '%03o' "0x$byte")" >>float
    done
    there_and_back "the float $bits" float
    echo "0  $text $text $text" >expected
    same "the float $bits as it is shown" shown expected
done <<'TEXT'
0000000000000000 0
8000000000000000 -0
3ff0000000000000 1
bfb999999999999a -0.1
3fd3333333333334 0.30000000000000004
4340000000000001 9007199254740994
0000000000000001 5e-324
800fffffffffffff -2.225073858507201e-308
0010000000000000 2.2250738585072014e-308
7fefffffffffffff 1.7976931348623157e+308
7ff0000000000000 inf
fff0000000000000 -inf
7ff8000000000000 nan:7ff8000000000000
7ff0000000000001 nan:7ff0000000000001
fff8000000000000 nan:fff8000000000000
ffffffffffffffff nan:ffffffffffffffff
TEXT

printf '18446744073709551615 nan nan:7FF8000000000000 +1.5\nbytes 0A ff\n' | "$root/records" pack >bytes
"$root/records" show bytes >shown
cat >expected <<'TEXT'
18446744073709551615  nan:7ff8000000000000 nan:7ff8000000000000 1.5
# left over: 2 of the 32 bytes of a record
bytes 0a ff
TEXT
same 'the highest number, a NaN and bytes left over' shown expected

# ---- text that is wrong

# refuses WORDS TEXT: the second line of a text is this one, and is refused with these words.
refuses() {
    tried=$((tried + 1))
    status=0
    # shellcheck disable=SC2059
    printf "1 0 0 0\n$2\n3 0 0 0\n" | timeout 20 "$root/records" pack >out 2>err || status=$?
    echo "records: standard input, line $1" >expected
    if [ "$status" -ne 1 ] || [ -s out ] || ! cmp -s err expected; then
        wrong "'$2': status $status, said:"
        cat err
    fi
}

refuses '2: less than a number and three floats' '2'
refuses '2: less than a number and three floats' '2 0 0'
refuses '2: more than a number and three floats' '2 0 0 0 0'
refuses '2: more than a number and three floats' '2 0 0 0 # the third mark'
refuses "2: '-2' is no number of digits" '-2 0 0 0'
refuses "2: '2.0' is no number of digits" '2.0 0 0 0'
refuses "2: '0x2' is no number of digits" '0x2 0 0 0'
refuses '2: 18446744073709551616 is above 18446744073709551615' '18446744073709551616 0 0 0'
refuses '2: 99999999999999999999999 is above 18446744073709551615' '99999999999999999999999 0 0 0'
refuses "2: 'x' is no decimal number" '2 0 x 0'
refuses "2: '1,5' is no decimal number" '2 0 0 1,5'
refuses "2: '0x1p3' is no decimal number" '2 0x1p3 0 0'
refuses "2: '1e' is no decimal number" '2 1e 0 0'
refuses "2: '.' is no decimal number" '2 0 . 0'
refuses "2: '1-2' is no decimal number" '2 0 1-2 0'
refuses "2: 'infinity' is no decimal number" '2 infinity 0 0'
refuses "2: 'NAN' is no decimal number" '2 0 0 NAN'
refuses '2: 1e309 is too large for a float' '2 0 1e309 0'
refuses '2: -1e999 is too large for a float' '2 0 0 -1e999'
refuses "2: 'nan:7ff0000000000000' is not nan: and the 16 hexadecimal digits of a NaN" '2 nan:7ff0000000000000 0 0'
refuses "2: 'nan:7ff8' is not nan: and the 16 hexadecimal digits of a NaN" '2 nan:7ff8 0 0'
refuses "2: 'nan:7ff800000000000g' is not nan: and the 16 hexadecimal digits of a NaN" '2 nan:7ff800000000000g 0 0'
refuses '3: something follows the line of bytes, which has to be the last' 'bytes 01'
refuses '2: 0 bytes, and not from 1 to 31' 'bytes'
refuses '2: 32 bytes, and not from 1 to 31' "bytes $(printf '%096d' 0 | sed 's/000/ 00/g')"
refuses "2: '1' is not the two hexadecimal digits of a byte" 'bytes 1'
refuses "2: '0g' is not the two hexadecimal digits of a byte" 'bytes 0g'
refuses '2: a byte 0 is no text' '2 0 0 0\000'

# ---- calls

# tells STATUS WORDS COMMAND..: the command ends with this status, prints nothing, and says these words on standard error.
tells() {
    status=$1 words=$2
    shift 2
    tried=$((tried + 1))
    got=0
    timeout 20 "$@" >out 2>err </dev/null || got=$?
    if [ "$got" -ne "$status" ] || [ -s out ] || ! grep -qF -e "$words" err; then
        wrong "$*: status $got, printed, then said:"
        cat out err
    fi
}

tells 2 'usage: ./records pack' "$root/records"
tells 2 'usage: ./records pack' "$root/records" unpack
tells 2 'usage: ./records pack' "$root/records" pack sample sample
tells 2 'usage: ./records pack' "$root/records" show sample/sheet.bin sample/marks.bin
tells 2 'usage: ./records pack' "$root/records" --help pack
tells 1 'records: nowhere/sheet.txt cannot be opened: ' "$root/records" pack nowhere
tells 1 'records: nowhere.bin cannot be opened: ' "$root/records" show nowhere.bin
tells 1 'records: sample cannot be read: ' "$root/records" show sample
tells 1 'records: standard output cannot be written: ' sh -c "exec '$root/records' show random >/dev/full"
tells 1 'records: standard output cannot be written: ' sh -c "exec '$root/records' pack <sample/marks.txt >/dev/full"
tells 1 'records: standard output cannot be written: ' sh -c "exec '$root/records' --help >/dev/full"
"$root/records" --help >shown
tried=$((tried + 1))
grep -q '^usage: ./records pack FOLDER' shown || wrong '--help does not print the usage'

# a folder whose marks are wrong keeps both of its files
cp -R sample kept
printf '\nx 0 0 0\n' >>kept/marks.txt
echo '3 0 0 0' >>kept/sheet.txt
tells 1 "records: kept/marks.txt, line 4: 'x' is no number of digits" "$root/records" pack kept
same 'a sheet that is kept' kept/sheet.bin sample/sheet.bin
same 'marks that are kept' kept/marks.bin sample/marks.bin

echo "records: $tried tried, $failed wrong"
[ "$failed" -eq 0 ]
