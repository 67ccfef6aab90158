#!/bin/sh
# tests/survey.sh: proves and builds the program `survey` where it is not that of the present files, and runs it on standard input of
# every kind: on the texts of tests/survey.cases, of which gemlab's own `Display` is stored, and on others. What it prints of marks
# that are taken is compared there with what `catalogue` prints of the same marks on the sheet of their extremes with 100 divisions,
# whose files ./records makes.
set -eu
unset CDPATH
cd "$(dirname "$0")/.."
root=$PWD
program=$root/crates/survey/out/survey
sample=$root/examples/marks.csv
for name in survey catalogue; do
    said=$(cd "crates/$name" && rt run 2>&1 >/dev/null </dev/null) || {
        echo "$said"
        exit 1
    }
done
work=$(mktemp -d)
trap 'rm -rf "$work"' EXIT
cd "$work"
mkfifo pipe
for name in expected out err; do
    : >"$name"
done
run=0
failed=0

wrong() {
    echo "survey: $1; expected, then printed and said:"
    cat expected out err
    failed=$((failed + 1))
}

# prints NAME: the program, on the standard input that it has here, prints what the file `expected` holds and says nothing else. A
# run may take 10 seconds.
prints() {
    run=$((run + 1))
    timeout 10 "$program" >out 2>err || echo "exit status $?" >>err
    if ! cmp -s out expected || [ -s err ]; then
        wrong "$1"
    fi
}

# refused NAME NUMBERS: likewise, the line of a refusal.
refused() {
    echo "refused $2" >expected
    prints "$1"
}

# taken NAME FILE: likewise on a file, what the catalogue prints of its marks, which it has to take.
taken() {
    catalogue "$2"
    if grep -q '^refused' expected; then
        wrong "$1: the catalogue refuses it"
    fi
    prints "$1" <"$2"
}

# What the catalogue prints of a file's marks.
catalogue() {
    mkdir -p files
    awk -F , '
        { sub(/\r$/, "") }
        {
            print $1, $2, $3, $4 >"files/marks.txt"
            for (i = 2; i <= 4; i++) {
                if (NR == 1 || $i + 0 < low[i] + 0) low[i] = $i
                if (NR == 1 || $i + 0 > high[i] + 0) high[i] = $i
            }
        }
        END {
            print 3, low[2], low[3], low[4] >"files/sheet.txt"
            print 100, high[2], high[3], high[4] >"files/sheet.txt"
        }' "$1"
    "$root/records" pack files
    (cd files && timeout 10 "$root/crates/catalogue/out/catalogue") >expected
}

# ---- the sample: the example for users is what rt runs the program on

cmp "$sample" "$root/crates/survey/stdin" || failed=$((failed + 1))
taken 'the sample' "$sample"
cmp expected "$root/crates/survey/stdout" || failed=$((failed + 1))
pieces() {
    n=1
    while [ "$n" -lt 300 ]; do
        tail -c +"$n" "$sample" | head -c 37
        n=$((n + 37))
        sleep 0.02
    done
    tail -c +"$n" "$sample"
}
pieces >in
cmp in "$sample"
pieces >pipe &
prints 'a pipe in small pieces' <pipe
wait

# ---- what gemlab itself prints, stored in tests/survey.cases

stored() {
    [ -z "$name" ] || prints "$name" <in
}
name=
while IFS= read -r line; do
    case $line in
    'case '*)
        stored
        name=${line#case }
        : >in
        : >expected
        ;;
    '< '*) printf '%s\n' "${line#< }" >>in ;;
    '<r '*) printf '%s\r\n' "${line#<r }" >>in ;;
    '<n '*) printf '%s' "${line#<n }" >>in ;;
    '> '*) printf '%s\n' "${line#> }" >>expected ;;
    esac
done <"$root/tests/survey.cases"
stored

# ---- marks

printf '1,0,0,0,\n2,10,20,30,\n' >in
taken 'two marks' in
printf '1,-10.5,-1048576,0.001,\r\n1,10,20,1048576.000,last\r\n' >in
taken 'one number twice, at the limits' in
printf '18446744073709551615,1,2,3,\n00000000000000000000,3,2.001,3.5,' >in
taken 'numbers at their limits' in
awk 'BEGIN { for (i = 0; i < 1024; i++) printf "%d,%.3f,%.3f,%.3f,post %d\n", i * 7919 % 1024, i % 32 * 3.7, int(i / 32) * 2.9, i * i % 11 * 0.613, i }' >in
taken '1,024 marks' in
cp in most
echo '5,1,1,1,' >>in
refused '1,025 marks' 12 <in
# The containers have sides of 1 from -0.01 on: each mark but two is beside eight of them.
awk 'BEGIN {
    print "1,0,0,0,"
    print "2,99.98,99.98,99.98,"
    for (i = 0; i < 127; i++) printf "%d,%d.99,%d.99,%d.99,\n", i + 3, i % 98, i % 98, i % 98
}' >in
taken '1,018 rows of 129 marks' in
echo '999,0.99,0.99,0.99,' >>in
catalogue in
grep -q '^refused 12$' expected || wrong 'rows for the catalogue'
refused 'more rows than there is room for' 12 <in

# ---- refusals

refused 'no bytes' '27 1' </dev/null
echo >in
refused 'an empty line' '27 1' <in
printf '1,0,0,0,\n2,1,1,1,\n3,2,2,2\n4,3,3,3,\n5,x,0,0,\n' >in
refused 'a line in the middle' '27 3' <in
printf '1,0,0,0,\n2,1,1,1,\n\n' >in
refused 'an empty line at the end' '27 3' <in
{ cat most && echo '5,1,1,1,' && echo '6,1,1.2345,1,'; } >in
refused 'a bad line past the marks that have room' '27 1026' <in
echo '1,2,3,4,' >in
refused 'one mark' 7 <in
printf '1,0,0,5,\n2,10,20,5,\n' >in
refused 'marks at one height' 7 <in

# ---- how much is read

# 2,048 lines of 64 bytes, of which line 2,000 is bad
awk 'BEGIN { for (i = 1; i <= 2048; i++) printf "%020d,0000001.125,0000002.5,%07d.%s,abcdefghi\n", i, i % 9, i == 2000 ? "1x" : "12" }' >in
[ "$(wc -c <in)" -eq 131072 ]
refused '131,072 bytes' '27 2000' <in
sed 's/1x/12/' in >good
refused '131,072 bytes of good lines' 12 <good
echo >>in
refused '131,073 bytes' 12 <in
yes >pipe 2>/dev/null &
refused 'a pipe without an end' 12 <pipe
wait || :
# once there are too many bytes, the next is not waited for
sh -c 'cat in && exec sleep 30' >pipe &
refused 'a byte too many, and no end' 12 <pipe
kill $!
wait || :

refused 'standard input is closed' 13 <&-
refused 'a folder' 13 <.

# ---- text that cannot be written

echo 'survey: the text could not be written whole' >expected
for name in 'no space for the text' 'standard output is closed'; do
    run=$((run + 1))
    : >out
    case $name in
    no*) timeout 10 "$program" <"$sample" >/dev/full 2>err ;;
    *) timeout 10 "$program" <"$sample" >&- 2>err ;;
    esac
    cmp -s err expected || wrong "$name"
done

echo "survey: $run runs, $failed wrong"
[ "$failed" -eq 0 ]
