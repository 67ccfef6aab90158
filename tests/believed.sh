#!/bin/sh
# tests/believed.sh: what a reader has to believe, apart from what is proved. It starts at what the library promises: the
# contracts of the public calls, the claims, and the text that the program writes. It follows every name through the `use`
# lines to its definition in this repository, and lists each definition that is reached, once, after those that it names,
# with its number of lines: neither blank, nor a comment, nor an `unfolding`, which only tells the checker what it may open.
# A type that the code declares is read there, and the names of the logic are the kit's.
# The last line has the count; with --count there is nothing else.
# It fails where a definition that is reached stands among laws or in proofs/, and where the count is not the one that
# README.md and docs/PROOFS.md have.
set -eu
unset CDPATH
cd "$(dirname "$0")/.."
work=$(mktemp -d)
trap 'rm -rf "$work"' EXIT

# Reads crates.txt, the calls, the code, and then every file of definitions and laws.
cat >"$work/walk" <<'AWK'
# A name, in a file, is its own item or one that a `use` line brings in.
function words(text, into,    n, i, m, list, w) {
    gsub(/[(){},;]/, " ", text)
    n = split(text, list, /[ \t\n]+/)
    m = 0
    for (i = 1; i <= n; i++) {
        w = list[i]
        if (w ~ /^\./ || w == "")
            continue
        sub(/\.+$/, "", w)
        into[++m] = w
    }
    return m
}

# `use MODULE.{A, B as C}` and `use MODULE as NAME` of this repository, also `pub`; other modules are the kit's.
function import(line,    module, rest, n, i, list, name, shown, k) {
    sub(/^ *((ghost|pub) )?use +/, "", line)
    sub(/; *$/, "", line)
    if (line !~ /^Rattle\./)
        return
    sub(/^Rattle\./, "", line)
    match(line, /^[a-z_0-9]+/)
    if (!(substr(line, 1, RLENGTH) in needs))
        return
    if (match(line, / as [^ {}]+$/) && line !~ /\{/) {
        name = substr(line, RSTART + 4)
        module = plain(substr(line, 1, RSTART - 1))
        alias[here, name] = module
        return
    }
    if (!match(line, /\.\{/))
        return
    rest = substr(line, RSTART + 2)
    module = plain(substr(line, 1, RSTART - 1))
    sub(/\}.*/, "", rest)
    n = split(rest, list, /, */)
    for (i = 1; i <= n; i++) {
        name = shown = list[i]
        if (k = index(list[i], " as ")) {
            name = substr(list[i], 1, k - 1)
            shown = substr(list[i], k + 4)
        }
        bring(shown, module SUBSEP name)
    }
    uses[here] = uses[here] " " module
}

# An operator `◌+◌` is met as `+`.
function bring(shown, target,    list, n, i) {
    brought[here, shown] = target
    if (shown ~ /◌/ && (n = split(shown, list, /◌/)))
        for (i = 1; i <= n; i++)
            if (list[i] != "")
                brought[here, list[i]] = target
}

# CRATE.specs.FILE: CRATE/specs/FILE
function plain(module) {
    gsub(/\./, "/", module)
    return module
}

function open_item(name, sort, line, depth) {
    item = here SUBSEP name
    sort_of[item] = sort
    at[item] = FNR
    count_of[here]++
    named[here, count_of[here]] = name
    if (sort == "law" && !(here in law))
        law[here] = name
    bring(name, item)
    item_depth = depth
    inside = (sort == "record" || sort == "data") ? sort : ""
    text[item] = frames(depth)
}

# the parameters of the modules that enclose a line of this depth
function frames(depth,    d, all) {
    for (d in frame)
        if (d + 0 < depth)
            all = all " " frame[d]
    return all
}

function antt(line,    depth, bare, head, name, sort, d) {
    if (line ~ /^ *--/ || line ~ /^ *$/)
        return
    sub(/ -- .*/, "", line)
    match(line, /^ */)
    depth = RLENGTH
    bare = substr(line, depth + 1)
    if (bare ~ /^(pub )?use /) {
        import(line)
        return
    }
    if (bare ~ /^(pub mod|infix[lr]?|unfolding) /)
        return
    # what stands deeper than an item, outside the parameters of a module, belongs to it
    if (item != "" && depth > item_depth) {
        text[item] = text[item] "\n" line
        lines[item]++
        if (inside == "data" && match(bare, /^[^ ]+ : /))
            bring(substr(bare, 1, RLENGTH - 3), item)
        return
    }
    for (d in frame)
        if (d + 0 >= depth)
            delete frame[d]
    if (bare ~ /^module .*where$/) {
        frame[depth] = bare
        item = ""
        return
    }
    head = bare
    sub(/ = .*/, "", head)
    if (head ~ / : / || head ~ / :$/) {
        sort = "law"
        if (sub(/^(unfoldable|abbrev) /, "", head))
            sort = "definition"
        sub(/^pub /, "", head)
        if (sub(/^record /, "", head))
            sort = "record"
        else if (sub(/^data /, "", head))
            sort = "data"
        name = head
        sub(/ .*/, "", name)
        open_item(name, sort, line, depth)
    }
    if (item == "")
        return
    text[item] = text[item] "\n" line
    lines[item]++
}

# The clauses of a function of the code, from its name to its body; a clause may have a name.
function clauses(all,    said, c, kind, named, depth, one) {
    while (all != "") {
        if (match(all, /^[A-Za-z_0-9]+/)) {
            if (depth > 0)
                one = one substr(all, 1, RLENGTH)
            else if (substr(all, 1, RLENGTH) ~ /^(requires|ensures)$/) {
                kind = 1
                named = 0
            } else if (named++)
                kind = 0
            all = substr(all, RLENGTH + 1)
            continue
        }
        c = substr(all, 1, 1)
        all = substr(all, 2)
        if (c == "{") {
            if (depth == 0 && !kind)
                break
            depth++
            c = " "
        } else if (c == "}") {
            if (--depth == 0)
                kind = 0
            c = " "
        }
        if (depth > 0)
            one = one c
        else if (c !~ /[* \t\n]/)
            kind = 0
    }
    return one
}

function code(    all, name) {
    all = source
    source = ""
    while (match(all, /fn +[A-Za-z_0-9]+/)) {
        name = substr(all, RSTART, RLENGTH)
        sub(/^fn +/, "", name)
        all = substr(all, RSTART + RLENGTH)
        if ((crate, name) in wanted) {
            seen[crate, name]++
            root(here, clauses(all))
        }
    }
}

function root(file, said) {
    roots++
    root_file[roots] = file
    root_text[roots] = said
}

# what a word of a file stands for: an item, a type that the code declares, or nothing of this repository
function meaning(file, word,    k, head) {
    if ((file, word) in brought)
        return brought[file, word]
    if (k = index(word, ".")) {
        head = substr(word, 1, k - 1)
        if ((file, head) in alias)
            return alias[file, head] SUBSEP substr(word, k + 1)
        if ((file, head) in brought)
            return brought[file, head]
    }
    return ""
}

function follow(file, said,    n, i, into, goal, part) {
    n = words(said, into)
    for (i = 1; i <= n; i++) {
        goal = meaning(file, into[i])
        if (goal == "" || (goal in reached))
            continue
        split(goal, part, SUBSEP)
        if (part[1] ~ /\/declared\//) {
            reached[goal] = 0
            continue
        }
        if (!(goal in sort_of)) {
            # a constructor of a type, or a name that the file brings in by another one's name
            if ((part[1], part[2]) in brought && brought[part[1], part[2]] != goal) {
                reached[goal] = 0
                goal = brought[part[1], part[2]]
                if (goal in reached)
                    continue
            } else {
                print "believed: " file ": no " part[2] " in " part[1] >"/dev/stderr"
                bad = 1
                reached[goal] = 0
                continue
            }
        }
        reached[goal] = 1
        waiting[++queued] = goal
    }
}

function visit_crate(name,    n, i, list) {
    if (name in crate_done || !(name in needs))
        return
    crate_done[name] = 1
    n = split(needs[name], list, / +/)
    for (i = 1; i <= n; i++)
        visit_crate(list[i])
    crate_order[++crates] = name
}

function visit_file(file,    n, i, list) {
    if (file in file_done || !(file in count_of))
        return
    file_done[file] = 1
    n = split(uses[file], list, / +/)
    for (i = 1; i <= n; i++)
        if (substr(list[i], 1, index(list[i], "/")) == substr(file, 1, index(file, "/")))
            visit_file(list[i])
    file_order[++files] = file
}

FNR == 1 {
    if (source != "")
        code()
    kind = FILENAME ~ /\.antt$/ ? "antt" : FILENAME ~ /\.rt$/ ? "rt" : FILENAME ~ /crates\.txt$/ ? "crates" : "calls"
    here = FILENAME
    sub(/^crates\//, "", here)
    sub(/\.(antt|rt)$/, "", here)
    crate = here
    sub(/\/.*/, "", crate)
    item = ""
    inside = ""
    split("", frame)
    if (kind == "antt")
        all_files[++all_count] = here
}
kind == "crates" {
    sub(/#.*/, "")
    if (match($0, /^[a-z_0-9]+( staticlib)?:/)) {
        name = $1
        sub(/:$/, "", name)
        needs[name] = substr($0, RLENGTH + 1)
        crate_list[++listed] = name
    }
}
kind == "calls" { wanted[$1, $2] = 1 }
kind == "rt" {
    sub(/\/\/.*/, "")
    if ($0 ~ /^ *ghost use /)
        import($0)
    source = source $0 "\n"
}
kind == "antt" { antt($0) }
END {
    for (k in wanted)
        if (!(k in seen)) {
            split(k, part, SUBSEP)
            print "believed: " part[1] ": no " part[2] >"/dev/stderr"
            bad = 1
        }
    for (i = 1; i <= roots; i++)
        follow(root_file[i], root_text[i])
    n = split(claims, list, / +/)
    for (i = 1; i <= n; i++) {
        if (!(list[i] in count_of)) {
            print "believed: no " list[i] >"/dev/stderr"
            bad = 1
        }
        for (j = 1; j <= count_of[list[i]]; j++)
            follow(list[i], named[list[i], j])
    }
    for (i = 1; i <= queued; i++) {
        split(waiting[i], part, SUBSEP)
        follow(part[1], text[waiting[i]])
    }
    for (i = 1; i <= listed; i++)
        visit_crate(crate_list[i])
    for (i = 1; i <= all_count; i++)
        visit_file(all_files[i])
    for (i = 1; i <= crates; i++)
        for (j = 1; j <= files; j++) {
            file = file_order[j]
            if (substr(file, 1, length(crate_order[i]) + 1) != crate_order[i] "/")
                continue
            told = 0
            for (k = 1; k <= count_of[file]; k++) {
                goal = file SUBSEP named[file, k]
                if (reached[goal] != 1)
                    continue
                if (!told++ && show)
                    print file ".antt"
                if (show)
                    printf "%6d %s\n", lines[goal], named[file, k]
                definitions++
                total += lines[goal]
                why = ""
                if (file ~ /\/proofs\//)
                    why = "stands in proofs/"
                else if (sort_of[goal] == "law")
                    why = "is a law"
                else if (file in law)
                    why = "stands among laws: " law[file]
                if (why != "") {
                    print "believed: " named[file, k] " of " file ".antt " why >"/dev/stderr"
                    bad = 1
                }
            }
        }
    print definitions " definitions, " (total < 1000 ? total : sprintf("%d,%03d", total / 1000, total % 1000)) " lines"
    exit bad
}
AWK

# walk DIRECTORY SHOW CALLS CLAIMS: the calls are in a file, a crate and a name to a line; the claims are files of definitions
walk() {
    (cd "$1" && awk -v show="$2" -v claims="$4" -f "$work/walk" crates.txt "$3" \
        crates/*/src/*.rt crates/*/specs/*.antt crates/*/proofs/*.antt)
}

# What this looks at, on an example.
mkdir -p "$work"/example/crates/low/src "$work"/example/crates/low/specs "$work"/example/crates/low/proofs \
    "$work"/example/crates/high/src "$work"/example/crates/high/specs "$work"/example/crates/high/proofs
(
    cd "$work/example"
    cat >crates.txt <<'END'
high staticlib: low
low:
END
    cat >crates/low/specs/Numbers.antt <<'END'
-- Not counted.
use Rattle.std.specs.Prelude.{ℕ, ◌+◌}
use Rattle.low.specs.declared.Pair.{Pair}
infixl 6 ◌⊞◌
abbrev pub ◌⊞◌ : ℕ → ℕ → ℕ
x ⊞ y = x + y

pub data Way : Type 0 where
  up : ℕ → Way
  -- and back
  down : Way

unfoldable pub unused : ℕ
unused = 0

module _ (w : Way) (p : Pair) where
  unfoldable pub turned : ℕ
  unfolding go
  turned = go w
    where
      go : Way → ℕ
      go (up n) = n ⊞ 1

      go down = 0
END
    cat >crates/low/specs/Mixed.antt <<'END'
use Rattle.low.specs.Numbers.{Way, turned}
pub use Rattle.low.specs.Numbers.{down}
abbrev pub mixed : Way → ℕ
mixed w = turned w w

pub law : (w : Way) → mixed w ≡ 0
law w = refl
END
    cat >crates/low/proofs/Apart.antt <<'END'
abbrev pub apart : ℕ
apart = 1
END
    cat >crates/high/specs/Claims.antt <<'END'
use Rattle.low.specs.Mixed.{mixed as both, down as back}
pub record Claim : Type 0 where
  pub is : both back ≡ 0
END
    cat >crates/high/proofs/Nothing.antt <<'END'
END
    cat >crates/high/src/lib.rt <<'END'
ghost use Rattle.low.specs.Numbers.{◌⊞◌, unused};
ghost use Rattle.low.proofs.Apart.{apart};
// pub fn shown() ensures { unused }
fn hidden() -> u64
    ensures { result ≡ unused }
{
    0
}
pub fn shown(x: u64) -> u64
    ensures unused { result ≡ x ⊞ 1 }
    ensures record_of { result.unused ≡ record { x = apart } }
{
    unused
}
END
    cat >crates/low/src/lib.rt <<'END'
END
    echo high shown >calls
)
cat >"$work/expected" <<'END'
believed: mixed of low/specs/Mixed.antt stands among laws: law
believed: apart of low/proofs/Apart.antt stands in proofs/
low/specs/Numbers.antt
     2 ◌⊞◌
     3 Way
     6 turned
low/specs/Mixed.antt
     2 mixed
low/proofs/Apart.antt
     2 apart
high/specs/Claims.antt
     2 Claim
6 definitions, 17 lines
END
{ walk "$work/example" 1 calls high/specs/Claims 2>&1 && echo "nothing is wrong"; } | LC_ALL=C sort >"$work/found"
LC_ALL=C sort "$work/expected" | diff - "$work/found" || {
    echo "believed: an example is read otherwise" && exit 1
}

# The public calls, and the functions that make the programs' texts.
tests/public.sh --list >"$work/calls"
printf '%s put_text\n' catalogue survey >>"$work/calls"
show=1
[ "${1:-}" != --count ] || show=0
failed=0
walk . "$show" "$work/calls" 'rows/specs/Claims directory/specs/Claims independence/specs/Claims cell_claims/specs/Claims millimetres/specs/Claims survey_claims/specs/Claims' >"$work/list" || failed=1
count=$(tail -n 1 "$work/list")
[ "$show" -eq 1 ] && for page in README.md docs/PROOFS.md; do
    said=$(tr -s '\n ' '  ' <$page | grep -oE '[0-9,]+ definitions, [0-9,]+ lines') || :
    [ "$said" = "$count" ] || {
        echo "believed: $page has: ${said:-nothing}" && failed=1
    }
done
cat "$work/list"
exit $failed
