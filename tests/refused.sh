#!/bin/sh
# tests/refused.sh: an edit that spoils several functions at once, since it costs a whole check of its crate, names them in lines
# '# refused: '. `rt ci` says of an edit no more than that it is refused. So each such edit is made here in a copy of the crates, and
# `rt check` has to say of each function that it names that it is not proved: by itself, not since it calls another, and for what it
# means, not since a proof file names what the edit took away. There is a change for each of them.
set -eu
unset CDPATH
cd "$(dirname "$0")/.."
work=$(mktemp -d)
trap 'rm -rf "$work"' EXIT

# Makes the changes of the edit $edit in the folder $folder, as rt does: each `old:` stands once in what the earlier ones made.
cat >"$work/apply" <<'AWK'
function wrong(why) {
    print "refused: " why
    failed = 1
    exit 1
}
/^file: / {
    path = folder "/" substr($0, 7)
    if (path in text)
        next
    while ((more = (getline line <path)) > 0)
        text[path] = text[path] line "\n"
    if (more < 0)
        wrong("there is no " path)
    close(path)
}
/^old: / { old = substr($0, 6) }
/^new:/ {
    new = substr($0, 5)
    sub(/^ /, "", new)
    all = text[path]
    place = index(all, old)
    if (old == "" || !place || index(substr(all, place + 1), old))
        wrong("this does not stand once in " path ": " old)
    text[path] = substr(all, 1, place - 1) new substr(all, place + length(old))
    old = ""
}
END {
    if (!failed)
        for (path in text)
            printf "%s", text[path] >path
}
AWK

# refused CRATE LOG NAME..: what is wrong with what the check said of these functions, a line for each
refused() {
    crate=$1
    log=$2
    shift 2
    for name; do
        said=$(grep -F "fn $crate::$name: " "$log" || :)
        proofs=proofs/$(echo "$name" | sed 's/::/\//g')/
        gone=$(grep -F "$proofs" "$log" | grep -E 'has no field|is not in scope|has no `|was not admitted' || :)
        case $said in
        *': not proved' | *': no proof: '*' did not prove '*)
            [ -z "$gone" ] || echo "$name is refused since a proof file names what is gone: $gone"
            ;;
        *) echo "$name is not refused by itself: ${said:-nothing is said of it}" ;;
        esac
    done
}

# What this looks at, on an example.
cat >"$work/said" <<'END'
note: src/lib.rt:6:1: it is not proved that what the function ensures holds when it returns (`returns`)
./proofs/m/named/Answers.antt:4:15: error: `old`: `goal.old`: module `Rattle.low.proofs.m.named.Goals` has no `old`
fn low::m::f: no proof: expected answers in ./proofs/f/Answers.antt; `search` did not prove `returns`
fn low::m::both: no proof: expected answers in ./proofs/h/Answers.antt; `search` did not prove `out`; it calls `low::m::f`, which is not proved
fn low::m::calls: no proof: it calls `low::m::f`, which is not proved
fn low::m::answered: not proved
fn low::m::named: not proved
fn low::m::held: proved
END
cat >"$work/expected" <<'END'
m::calls is not refused by itself: fn low::m::calls: no proof: it calls `low::m::f`, which is not proved
m::named is refused since a proof file names what is gone: ./proofs/m/named/Answers.antt:4:15: error: `old`: `goal.old`: module `Rattle.low.proofs.m.named.Goals` has no `old`
m::held is not refused by itself: fn low::m::held: proved
m::other is not refused by itself: nothing is said of it
END
refused low "$work/said" m::f m::both m::calls m::answered m::named m::held m::other | diff "$work/expected" - || {
    echo "refused: an example is read otherwise" && exit 1
}
mkdir "$work/src"
printf 'a.b\n\\1 & a.b\n' >"$work/src/lib.rt"
printf '# no change\nfile: src/lib.rt\nold: & a.b\nnew: & \\0\nold: a.b\nnew:\nold: 1 &\nnew: &&\n' >"$work/edit"
awk -v folder="$work" -f "$work/apply" "$work/edit"
printf '\n\\&& \\0\n' | cmp - "$work/src/lib.rt" || {
    echo "refused: an edit is made otherwise" && exit 1
}

failed=0
count=0
for edit in crates/*/must-fail/*.edit; do
    names=$(sed -n 's/^# refused: //p' "$edit")
    [ -n "$names" ] || continue
    crate=${edit#crates/}
    crate=${crate%%/*}
    rm -rf "$work/tree"
    mkdir "$work/tree"
    cp crates.txt "$work/tree"
    for part in crates/*/src crates/*/specs crates/*/proofs; do
        mkdir -p "$work/tree/${part%/*}"
        cp -R "$part" "$work/tree/$part"
    done
    awk -v folder="$work/tree/crates/$crate" -f "$work/apply" "$edit" || {
        failed=1
        continue
    }
    (cd "$work/tree/crates/$crate" && rt check </dev/null >"$work/log" 2>&1) || :
    grep -q '^logic=not-proved' "$work/log" || {
        echo "refused: $edit: the check gives no verdict:" && tail -n 5 "$work/log"
        failed=1
        continue
    }
    changes=$(grep -c '^old:' "$edit")
    for name in $names; do
        changes=$((changes - 1))
        count=$((count + 1))
    done
    # shellcheck disable=SC2086
    refused "$crate" "$work/log" $names >"$work/wrong"
    [ ! -s "$work/wrong" ] || {
        sed "s|^|refused: $edit: |" "$work/wrong"
        failed=1
    }
    [ "$changes" -eq 0 ] || {
        echo "refused: $edit has not one change for each function that it names"
        failed=1
    }
done
[ "$count" -gt 0 ] || {
    echo "refused: no edit names its functions" && failed=1
}
[ "$failed" -eq 0 ] && echo "refused: each of $count functions, by itself"
exit $failed
