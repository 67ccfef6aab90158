#!/bin/sh
# tests/run.sh: ./run as a user calls it: what it prints, what it says on standard error, and its exit status.
set -eu
unset CDPATH
cd "$(dirname "$0")/.."
root=$PWD
sample=$root/crates/catalogue/stdout
marks=$root/examples/marks.csv
surveyed=$root/crates/survey/stdout
for program in '' survey; do
    # shellcheck disable=SC2086
    said=$(./run $program 2>&1 <"$marks") || {
        echo "$said"
        exit 1
    }
done
work=$(mktemp -d)
trap 'rm -rf "$work"' EXIT
cd "$work"
tried=0
failed=0

# tell NAME STATUS PRINTED WORDS COMMAND..: the command ends with this status, prints what the file PRINTED holds, and says WORDS
# on standard error, or nothing where they are empty.
tell() {
    name=$1 status=$2 printed=$3 words=$4
    shift 4
    tried=$((tried + 1))
    got=0
    timeout 60 "$@" >out 2>err </dev/null || got=$?
    said=right
    if [ -z "$words" ]; then
        [ ! -s err ] || said=wrong
    else
        grep -qF -e "$words" err || said=wrong
    fi
    if [ "$got" -ne "$status" ] || [ $said = wrong ] || ! cmp -s out "$printed"; then
        echo "run: $name: status $got; printed, then said:"
        cat out err
        failed=$((failed + 1))
    fi
}

: >nothing
echo 'refused 13' >refused
"$root/run" --help >usage
grep -q '^usage: ./run \[FOLDER\]' usage

tell 'the sample' 0 "$sample" '' "$root/run"
for folder in plain -data --help -h -- - 'two words' "it's"; do
    mkdir "./$folder"
    cp "$root"/crates/catalogue/data/*.bin "./$folder"
done
tell 'a folder' 0 "$sample" '' "$root/run" plain
tell 'a folder by its whole name' 0 "$sample" '' "$root/run" "$work/plain"
tell 'a name that starts with -' 0 "$sample" '' "$root/run" -data
tell 'a name that is -' 0 "$sample" '' "$root/run" -
tell 'a name that is an option' 0 "$sample" '' "$root/run" -- --help
tell 'an option by its path' 0 "$sample" '' "$root/run" ./-h
tell 'no name after --' 0 "$sample" '' "$root/run" --
tell 'a name that is --' 0 "$sample" '' "$root/run" -- --
tell 'a name of two words' 0 "$sample" '' "$root/run" 'two words'
tell 'a name with a quote' 0 "$sample" '' "$root/run" "it's"

tell 'usage' 0 usage '' "$root/run" --help
tell 'usage by -h' 0 usage '' "$root/run" -h
tell 'two folders' 2 nothing 'usage: ./run [FOLDER]' "$root/run" plain plain
tell 'an option and a folder' 2 nothing 'usage: ./run [FOLDER]' "$root/run" --help plain
tell 'two folders after --' 2 nothing 'usage: ./run [FOLDER]' "$root/run" -- plain plain

tell 'no such folder' 1 nothing "run: there is no folder 'nowhere'" "$root/run" nowhere
tell 'a folder without a name' 1 nothing "run: there is no folder ''" "$root/run" ''
tell 'a file for a folder' 1 nothing "run: there is no folder 'nothing'" "$root/run" nothing
mkdir empty half odd
cp plain/sheet.bin half
cp plain/sheet.bin odd
mkdir odd/marks.bin
tell 'no sheet' 0 refused "run: there is no sheet.bin in 'empty'" "$root/run" empty
tell 'no marks' 0 refused "run: there is no marks.bin in 'half'" "$root/run" half
tell 'marks that are a folder' 0 refused "run: marks.bin in 'odd' cannot be read" "$root/run" odd
tell 'no space for the text' 1 nothing 'catalogue: the text could not be written whole' \
    sh -c "exec '$root/run' >/dev/full"

# ---- the program survey

tell 'a file' 0 "$surveyed" '' "$root/run" survey "$marks"
cp "$marks" marks.csv
cp "$marks" ./-marks
tell 'a file beside' 0 "$surveyed" '' "$root/run" survey marks.csv
tell 'a file whose name starts with -' 0 "$surveyed" '' "$root/run" survey -marks
tell 'standard input' 0 "$surveyed" '' sh -c "exec '$root/run' survey <marks.csv"
tell 'standard input by its name' 0 "$surveyed" '' sh -c "exec '$root/run' survey - <marks.csv"
tell 'a pipe' 0 "$surveyed" '' sh -c "cat marks.csv | '$root/run' survey"
echo 'refused 27 1' >malformed
tell 'standard input with nothing in it' 0 malformed '' "$root/run" survey
tell 'a file with nothing in it' 0 malformed '' "$root/run" survey nothing
tell 'no such file' 1 nothing "run: there is no file 'nowhere'" "$root/run" survey nowhere
tell 'a file without a name' 1 nothing "run: there is no file ''" "$root/run" survey ''
tell 'a folder for a file' 1 nothing "run: 'plain' cannot be read" "$root/run" survey plain
tell 'two files' 2 nothing 'usage: ./run [FOLDER]' "$root/run" survey marks.csv marks.csv
tell 'no space for its text' 1 nothing 'survey: the text could not be written whole' \
    sh -c "exec '$root/run' survey marks.csv >/dev/full"
mkdir survey
cp plain/*.bin survey
tell 'a folder of that name' 0 "$sample" '' "$root/run" ./survey
tell 'a folder of that name after --' 0 "$sample" '' "$root/run" -- survey

# stand-ins for the kit: none, one that fails, and one that proves some crates anew
tell 'no kit' 1 nothing 'run: the command rt' env PATH=/nowhere "$root/run"
mkdir kit
cat >kit/rt <<'TEXT'
#!/bin/sh
{
    echo 'fn floats::sqrt: proved'
    echo 'crate floats: modules loaded=0 checked=33'
    echo 'logic=proved functions=13 sum=1'
} >&2
echo 'what the program prints where the kit runs it'
exit "$(cat ../../given)"
TEXT
chmod +x kit/rt
echo 'run: floats is proved (functions: 13)' >shown
for status in 0 1; do
    mkdir -p "copy$status/crates"
    cp "$root/run" "copy$status"
    for program in catalogue survey; do
        mkdir -p "copy$status/crates/$program/out"
        cp "$root/crates/$program/out/$program" "copy$status/crates/$program/out"
    done
    cp -R "$root/crates/catalogue/data" "copy$status/crates/catalogue"
    echo $status >"copy$status/given"
done
tell 'what is proved' 0 "$sample" 'run: floats is proved (functions: 13)' env PATH="$work/kit:$PATH" copy0/run
tell 'nothing but what is proved' 0 "$sample" '' sh -c "PATH='$work/kit':\$PATH copy0/run 2>told; cmp -s told shown || cat told >&2"
tell 'a call from its own folder' 0 "$sample" 'run: floats' env PATH="$work/kit:$PATH" sh -c 'cd copy0 && exec sh run'
# cd looks into CDPATH first, and then prints where it went
mkdir -p elsewhere/plain elsewhere/copy0
tell 'CDPATH and the sample' 0 "$sample" 'run: floats' env PATH="$work/kit:$PATH" CDPATH="$work/elsewhere" copy0/run
tell 'CDPATH and a folder' 0 "$sample" 'run: floats' env PATH="$work/kit:$PATH" CDPATH="$work/elsewhere" copy0/run plain
tell 'all that is said where a proof fails' 1 nothing 'fn floats::sqrt: proved' env PATH="$work/kit:$PATH" copy1/run
tell 'that a proof failed' 1 nothing 'run: the catalogue is not proved' env PATH="$work/kit:$PATH" copy1/run

tell 'what is proved of survey' 0 "$surveyed" 'run: floats is proved (functions: 13)' env PATH="$work/kit:$PATH" copy0/run survey marks.csv
tell 'that a proof of survey failed' 1 nothing 'run: the program survey is not proved' env PATH="$work/kit:$PATH" copy1/run survey marks.csv

rm copy0/crates/catalogue/out/catalogue
tell 'that minutes of proving start' 1 nothing 'run: proving the catalogue' env PATH="$work/kit:$PATH" copy0/run
tell 'that there is no program' 1 nothing 'run: rt built no crates/catalogue/out/catalogue' env PATH="$work/kit:$PATH" copy0/run

echo "run: $tried calls, $failed wrong"
[ "$failed" -eq 0 ]
