#!/usr/bin/env python3
"""Prints what changed in public contracts, type invariants and definitions, old and new one under the other.

tools/beside.py OLD [NEW]: for docs/DESIGN-PASS.md, of two commits, or of one and the work tree.
tools/renamed.tsv says which function or definition stands for one that is gone: OLD, a tab, NEW.
A trait's ghost members count as clauses: `next_gives` of the function `next`, and those that name
no function (a model's Value, view and invariant) of the type itself. A definition is shown with
its equations, a theorem of proofs/ by what it states.
"""
import re
import subprocess
import sys
import textwrap

from places import close, files_of


def functions(name, text):
    """Public functions with their type, signature and clauses; structs with their ghost fields."""
    crate = name.split("/")[1]
    types = []
    ghosts = {}
    for m in re.finditer(r"^(?:impl|trait)\b[^{;]*\{", text, re.M):
        head = m.group(0)
        to = close(text, m.end() - 1)
        k = re.search(r"impl(?:<[^>]*>)?\s+(?:([\w:<>]+(?:<[^{]*>)?)\s+for\s+)?&?(?:'\w+ )?([\w]+)", head)
        if k:
            trait = f" as {k.group(1)}" if k.group(1) else ""
            types.append((m.start(), to, k.group(2) + trait))
            for g in re.finditer(r"^ +ghost (\w+) = \{", text[m.end():to], re.M):
                end = close(text, m.end() + g.end() - 1)
                said = " ".join(text[m.end() + g.start():end].split()) + ";"
                ghosts.setdefault(k.group(2) + trait, {})[g.group(1)] = said
    for m in re.finditer(r"^( *)(pub )?((?:const )?(?:unsafe )?(?:extern \"C\" )?fn (\w+))", text, re.M):
        owner = next((t for a, b, t in types if a < m.start() < b), None)
        if not m.group(2) and not (owner and " as " in owner):
            continue
        if "#[test]" in text[max(0, m.start() - 60):m.start()]:
            continue
        at = text.index("(", m.end())
        if "<" in text[m.end():at]:
            at = text.index("(", close(text, text.index("<", m.end()), "<", ">"))
        pos = close(text, at, "(", ")")
        k = re.compile(r"\b(?:requires|ensures)\*?\s*[\w*]*\s*\{|\{").search(text, pos)
        first = k.start() if k else len(text)
        sig = " ".join(text[m.start():first].split())
        sig = re.sub(r"\( ", "(", sig)
        sig = re.sub(r",? \)", ")", sig)
        clauses = []
        while k:
            open_at = text.index("{", k.start())
            if not text[k.start():open_at].strip():
                break
            end = close(text, open_at)
            clauses.append(" ".join(text[k.start():end].split()))
            k = re.compile(r"\b(?:requires|ensures)\*?\s*[\w*]*\s*\{|\{").search(text, end)
        mine = [g for g in ghosts.get(owner, {}) if g.startswith(m.group(4) + "_")]
        clauses += [ghosts[owner].pop(g) for g in mine]
        own = owner.split(" as ")[0] + "::" if owner else ""
        trait = f" ({owner.split(' as ')[1]})" if owner and " as " in owner else ""
        yield f"{crate}::{own}{m.group(4)}{trait}", [sig] + clauses
    for owner, said in ghosts.items():
        if said:
            own, _, trait = owner.partition(" as ")
            yield f"{crate}::{own} ({trait})", [f"impl {trait} for {own}"] + list(said.values())
    for m in re.finditer(r"^pub (struct|enum) (\w+)", text, re.M):
        if re.match(r"[^{;]*;", text[m.end():]):
            body = text[m.start():text.index(";", m.end()) + 1]
        else:
            body = text[m.start():close(text, text.index("{", m.end()))]
        body = re.sub(r"//[^\n]*", "", body)
        yield f"{crate}::{m.group(2)}", [" ".join(body.split())]


def definitions(name, text):
    """Definitions with their equations, and the laws of proofs/ by their type, each by its name."""
    crate = name.split("/")[1]
    module = re.sub(r"^crates/[^/]+/(specs|proofs)/", "", name)[:-5].replace("/", ".")
    in_specs = "/specs/" in name
    current, body, inner, whole, depth = None, [], False, in_specs, 0
    for line in text.split("\n") + ["pub end"]:
        if not line.strip() and body and whole and not in_specs:
            yield current, [" ".join(" ".join(body).split())]
            current, body = None, []
        if line.strip().startswith("--") or not line.strip():
            continue
        indent = len(line) - len(line.lstrip())
        word = re.match(r"\s*(?:(?:abbrev|unfoldable) )?pub (record |data )?([^\s:({]+)", line)
        field = current and inner and indent > depth
        private = re.match(r"(?:abbrev |unfoldable )?([^\s(){}:]+) :(?: |$)", line.strip())
        if current and body and private and not field and indent <= depth and not current.endswith("." + private.group(1)):
            yield current, [" ".join(" ".join(body).split())]
            current, body = None, []
        if (word and not field and indent <= 4) or re.match(r"(module|use|pub|mod)\b", line.strip()):
            if field and not indent == 0:
                body.append(line.strip())
                continue
            if current and body:
                yield current, [" ".join(" ".join(body).split())]
            current, body, inner = None, [], False
            if word and word.group(2) not in ("use", "mod", "end"):
                current = f"{crate}.{module}.{word.group(2)}"
                inner, depth = bool(word.group(1)), indent
                whole = in_specs or inner or re.match(r"\s*(abbrev|unfoldable)\b", line)
        if not current:
            continue
        if not whole and body and re.match(
                re.escape(current.rsplit(".", 1)[1]) + r"\s|\s*unfolding\b|\s*where\b", line.strip()):
            yield current, [" ".join(" ".join(body).split())]
            current, body = None, []
            continue
        if not re.match(r"\s*unfolding\b", line):
            body.append(line.strip())


def named(commit):
    """The words that README and docs/ have in code style, in a commit."""
    text = ""
    names = subprocess.run(["git", "ls-tree", "-r", "--name-only", commit], capture_output=True,
                           text=True, check=True).stdout.split("\n")
    for name in names:
        if re.fullmatch(r"(README|docs/.*)\.md", name) or name == "README.md":
            text += subprocess.run(["git", "show", f"{commit}:{name}"], capture_output=True,
                                   text=True, check=True).stdout
    return set(re.findall(r"`([^`\s]+)`", text))


def read(commit, words):
    found = {}
    for name, text in files_of(commit):
        if re.fullmatch(r"crates/[^/]+/src/.*\.rt", name):
            for key, parts in functions(name, text):
                found[key] = parts
        elif re.fullmatch(r"crates/[^/]+/specs/(?!Lib).*\.antt", name):
            for key, parts in definitions(name, text):
                found[key] = parts
        elif re.fullmatch(r"crates/[^/]+/proofs/[^/]+\.antt", name):
            for key, parts in definitions(name, text):
                if key.rsplit(".", 1)[1] in words or name.endswith("/Theorems.antt"):
                    found[key] = parts
    return found


def shown(mark, parts):
    for part in parts:
        print("\n".join(textwrap.wrap(part, 100, initial_indent=mark + " ", subsequent_indent="  ",
                                      break_long_words=False, break_on_hyphens=False)))


def main():
    words = named(sys.argv[1])
    old = read(sys.argv[1], words)
    new = read(sys.argv[2] if len(sys.argv) > 2 else None, words)
    renamed = {}
    try:
        for line in open("tools/renamed.tsv"):
            if line.strip() and not line.startswith("#"):
                a, b = line.rstrip("\n").split("\t")
                renamed[a] = b
    except FileNotFoundError:
        pass
    crates = sorted({k.split("::")[0].split(".")[0] for k in list(old) + list(new)})
    taken = set()
    for crate in crates:
        out = []
        for key in sorted(k for k in old if re.split(r"::|\.", k)[0] == crate):
            where = renamed[key] if renamed.get(key) in new else key if key in new else renamed.get(key, key)
            if where in new:
                taken.add(where)
                if " ".join(old[key]).split() == " ".join(new[where]).split() and where == key:
                    continue
                out.append((key, where, old[key], new[where]))
            else:
                out.append((key, where if key in renamed else None, old[key], None))
        for key in sorted(k for k in new if re.split(r"::|\.", k)[0] == crate):
            if key not in taken and key not in renamed.values():
                out.append((None, key, None, new[key]))
        if not out:
            continue
        print(f"\n### `{crate}`\n")
        print("```text")
        for key, where, a, b in out:
            if key is None:
                print(f"new: {where}")
                shown("+", b)
            elif b is None:
                line = f"gone: {key}" + (f"; its promise: {where}" if where else "")
                print("\n".join(textwrap.wrap(line, 100, subsequent_indent="  ",
                                              break_long_words=False, break_on_hyphens=False)))
                shown("-", a)
            else:
                print(key if key == where else f"{key} -> {where}")
                both = set(a) & set(b)
                shown("-", [p for p in a if p not in both])
                shown("+", [p for p in b if p not in both])
        print("```")


main()
