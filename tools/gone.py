#!/usr/bin/env python3
"""Says for each name that went since a commit what states its promise now.

tools/gone.py OLD: a section of docs/DESIGN-PASS.md, crate by crate. It ends with 1, and names them,
where nothing is said of some.
A function, a definition or a lemma counts as gone where its crate has none of that name any more
(a dash and a low line count as one).
- Where one of today states the same (but for the names of variables), it is a new name for it.
- tools/renamed.tsv says what stands for a public function or a definition of specs/, and
  tools/gone.tsv for others: CRATE, a tab, names with commas between, a tab, what states it now.
- Of the rest it is printed what used them at OLD, directly or through others that went, and stands
  now: a function with its contract, or a lemma. They served the proofs of these alone.
What answers the needs of one function (proofs/FUNCTION/) is part of that function's proof.
"""
import re
import sys
import textwrap
from collections import defaultdict

from places import files_of, functions

WORD = r"[^\s(){}\[\],;:.]+"
ITEM = re.compile(r"(?:abbrev |unfoldable )?(?:pub )?(?:(?:record|data) (" + WORD + r")|(" + WORD + r") :(?: |$))")
USE = re.compile(r"\buse Rattle\.(\w+)\.(specs|proofs)\.([\w.]+)\.\{([^}]*)\}")


def flat(name):
    return name.replace("-", "_")


def words(text):
    return set(re.findall(WORD, text))


def items(text):
    """Each definition and lemma of a file: its name, what it states, and the words in it and its proof.

    What a `where` holds is part of its lemma. A variable of an enclosing module stands before the
    statement where the statement has it.
    """
    lines = [line for line in text.split("\n") if line.strip() and not line.strip().startswith("--")]
    depth = [len(line) - len(line.lstrip()) for line in lines]
    scopes = [(0, "")]
    i = 0
    while i < len(lines):
        said, here = lines[i].strip(), depth[i]
        while here < scopes[-1][0]:
            scopes.pop()
        end = i + 1
        while end < len(lines) and depth[end] > here and not (said.startswith("module") and lines[end - 1].endswith("where")):
            end += 1
        block = " ".join(line.strip() for line in lines[i:end])
        if said.startswith("module"):
            scopes.append((here + 2, block[6:]))
        m = ITEM.match(said)
        if m and here == scopes[-1][0] and not said.startswith("module"):
            name = m.group(1) or m.group(2)
            proof = end
            while proof < len(lines) and depth[proof] >= here and (
                    depth[proof] > here or re.match(re.escape(name) + r"\s|unfolding\b|[})]", lines[proof].strip())):
                proof += 1
            body = " ".join(line.strip() for line in lines[i:proof])
            stated = body if re.match("abbrev|unfoldable", said) else block
            outer = " ".join(s for _, s in scopes)
            for names, kind in reversed(re.findall(r"[({]([^:(){}]+) : ((?:[^(){}]|\([^()]*\))+)[)}]", outer)):
                if words(names) & words(stated):
                    stated = f"({names} : {kind}) {stated}"
            yield name, plain(stated, name), words(outer + " " + body)
            end = proof
        i = end


def plain(stated, name):
    """A statement with its own name left out, its variables numbered, and - as _."""
    bound = {name: "it"}
    for names in re.findall(r"[({]([^:(){}]+) : ", stated):
        for v in names.split():
            bound.setdefault(v, f"v{len(bound)}")
    stated = re.sub(r"\b(abbrev|unfoldable|pub) ", "", stated)
    return " ".join(bound.get(w, w).replace("-", "_") for w in re.findall(r"[(){}\[\],;:.]|" + WORD, stated))


def read(commit):
    """Of a commit: what stands for (crate, name), as a list of (name, statement), and what uses it."""
    found, users = defaultdict(list), defaultdict(set)
    for file, text in files_of(commit):
        crate, part, rest = file.split("/", 3)[1:]
        if "/declared/" in file or rest == "Lib.antt":
            continue
        module = rest.rsplit(".", 1)[0]
        imported = {}
        for c, _, _, names in USE.findall(text):
            for n in names.split(","):
                old, _, alias = n.strip().partition(" as ")
                imported[alias or old] = (c, flat(old))
        if part == "src":
            for f in functions(file, text):
                stated = " ".join(f.params) + " | " + " ".join(f"{w} {c}" for w, c in f.clauses)
                found[crate, f.name + "()"].append((f.name + "()", plain(stated, f.name) if f.clauses else None))
                for w in words(" ".join(c for _, c in f.clauses)):
                    if w in imported:
                        users[imported[w]].add((crate, f.name + "()"))
                for w in re.findall(r"\b(\w+)(?:::<[^(]*>)?\(", f.body):
                    users[crate, w + "()"].add((crate, f.name + "()"))
        elif "/" in module:
            f = re.sub(r"^\+", "", module.split("/")[-2])
            for w in words(USE.sub("", text)):
                if w in imported:
                    users[imported[w]].add((crate, f + "()"))
        else:
            mine = list(items(text))
            local = {name for name, _, _ in mine}
            for name, stated, used in mine:
                found[crate, flat(name)].append((name, stated))
                for w in used - {name}:
                    if w in local or w in imported:
                        users[(crate, flat(w)) if w in local else imported[w]].add((crate, flat(name)))
    return found, users


def table(path):
    """The rows of a file of names, each cut at its tabs."""
    return [line.rstrip("\n").split("\t") for line in open(path) if line.strip() and not line.startswith("#")]


def served(key, users, stands):
    """What used a name, directly or through others that went, and stands now: functions first."""
    seen, todo, found = {key}, [key], set()
    while todo:
        for user in users[todo.pop()] - seen:
            seen.add(user)
            if user in stands:
                found.add(user)
            else:
                todo.append(user)
    return sorted(found, key=lambda k: (not k[1].endswith("()"), k))


def listed(names, most=6):
    more = f" and {len(names) - most} more" if len(names) > most else ""
    return ", ".join(f"`{n}`" for n in names[:most]) + more


def main():
    old, users = read(sys.argv[1])
    new, _ = read(None)
    alike = defaultdict(list)
    for key, places in new.items():
        for name, stated in places:
            if stated:
                alike[stated].append((key[0], name))
    told, wrong = {}, []
    for crate, names, what in table("tools/gone.tsv"):
        told.update({(crate, flat(n.strip())): what for n in names.split(",")})
        wrong += [f"tools/gone.tsv: no {w}" for w in re.findall(r"`(\w+::\w+)`", what)
                  if w[0].islower() and (w.split("::")[0], w.split("::")[1] + "()") not in new
                  and w.split("::")[0] in {c for c, _ in new} and w.split("::")[1][0].islower()]
    elsewhere = set()
    for name, *_ in table("tools/renamed.tsv"):
        parts = re.split(r"::|\.", name)
        elsewhere.add((parts[0], flat(parts[-1]) + ("()" if "::" in name else "")))
    # a public function with a new name stands too: the list of contracts shows it
    stands = set(new) | {k for k in elsewhere if k[1].endswith("()")}
    pages = defaultdict(lambda: defaultdict(list))
    silent = defaultdict(list)
    for c, n in told:
        if (c, n) in new or (c, n) not in old:
            print(f"tools/gone.tsv: {c} {n} has not gone", file=sys.stderr)
    for key in sorted(k for k in old if k not in new and k not in elsewhere):
        crate, name = key[0], old[key][0][0]
        same = sorted({(c != crate, -len(n), c, n) for _, stated in old[key] if stated for c, n in alike.get(stated, [])})
        uses = served(key, users, stands)
        if all(stated is None for _, stated in old[key]):
            silent[crate].append(name)
        elif key in told:
            pages[crate]["1 " + told[key]].append(name)
        elif same:
            other, _, c, n = same[0]
            pages[crate][f"0 `{c}` has the same as `{n}`" if other else f"0 now `{n}`"].append(name)
        elif uses:
            stand = [n if c == crate else f"{c}: {n}" for c, n in uses]
            pages[crate][f"2 only for {listed(stand)}"].append(name)
        else:
            wrong.append(f"{crate} {name}: nothing is said of it")
    went = [sum(len(names) for page in pages.values() for what, names in page.items() if what[0] == kind)
            for kind in "012"] + [sum(len(names) for names in silent.values())]
    print(textwrap.fill(
        f"Of {len(old):,} names {sum(went)} went, besides those in the list of contracts: {went[0]} have another "
        f"name, of {went[1]} it is said what states them, {went[2]} were used for what stands, and {went[3]} "
        "were functions without a contract.", 100))
    for crate in sorted(set(pages) | set(silent)):
        print(f"\n### `{crate}`: what went\n")
        for what, names in sorted(pages[crate].items()):
            shown(f"{listed(names, len(names))}: {what[2:]}")
        if silent[crate]:
            shown(f"without a contract, so that nothing was promised: {listed(silent[crate], 99)}")
    for line in wrong:
        print(line, file=sys.stderr)
    return bool(wrong)


def shown(line):
    print("\n".join(textwrap.wrap(line, 100, initial_indent="- ", subsequent_indent="  ",
                                  break_long_words=False, break_on_hyphens=False)))


if __name__ == "__main__":
    sys.exit(main())
