#!/usr/bin/env python3
"""Brings the repository's own definitions and lemmas to today's spelling, once, after the kit's port.py.

usage: python3 tools/spell.py        at the top of the repository

Each line of tools/spelling.tsv has an old name and a new one. Words are in snake case; a dash joins two names; a lemma that
would have its definition's name ends in _lem. Whole names alone are turned, in the .antt files of specs/ and proofs/, in the
ghost text of the .rt files and in the must-fail edits. What follows a dot is turned only where the name before it stands for a
module of the repository's own lemmas. Names of goals, steps and fields, which the kit makes, stay.
"""

import os
import re

HERE = os.path.dirname(os.path.realpath(__file__))
NAME = re.compile(r"[\w'⊖⊕⊗⊘·₀-₉-]+")
OWN = re.compile(r"^\s*use (Rattle\.(?!std\.|core\.)[\w.+]+) as ([\w'-]+)\s*$", re.M)
MADE = re.compile(r"\.(Tie|Reads|Lts|Goals|Given|Statement|Kinds|Symbol|Met|TheVariants|TheLaws)|\.contracts\.|\.declared\.")


def table():
    with open(os.path.join(HERE, "spelling.tsv"), encoding="utf-8") as f:
        return dict(line.rstrip("\n").split("\t") for line in f)


def turn(text, names, own=()):
    def new(m):
        word = m.group(0)
        if word not in names:
            return word
        before = text[: m.start()]
        if before.endswith("."):
            owner = re.search(r"([\w'-]+)\.$", before)
            if not owner or owner.group(1) not in own:
                return word
        return names[word]

    return NAME.sub(new, text)


# In prose a word with a dash is English, and only a name with a capital inside, or one between backticks, is turned.
def turn_prose(text, names):
    ghost = {a: b for a, b in names.items() if re.search(r"[a-z][A-Z]", a)}
    marked = {a: b for a, b in names.items() if re.search(r"[a-z][A-Z]|-", a)}
    return turn(re.sub(r"`[^`]*`", lambda m: turn(m.group(0), marked), text), ghost)


def turn_lines(text, names, comment, by):
    own = {m.group(2) for m in OWN.finditer(text) if not MADE.search(m.group(1))}
    whole = []
    for line in text.split("\n"):
        at = line.find(comment) if comment == "//" else (0 if line.startswith("-- ") else line.find(" -- "))
        if at < 0:
            whole.append(by(line, names, own))
        else:
            whole.append(by(line[:at], names, own) + turn_prose(line[at:], names))
    return "\n".join(whole)


def turn_edit(text, names):
    return "\n".join(turn(line, names) if line.startswith(("old:", "new:")) else turn_prose(line, names) for line in text.split("\n"))


# In Rattle's own code only what stands in ghost text is ours to spell: a name with a capital inside, or with a dash.
def turn_code(text, names, own):
    ghost = {a: b for a, b in names.items() if re.search(r"[a-z][A-Z]|-", a)}
    return turn(text, ghost, own)


def main():
    names = table()
    turned = 0
    for folder, dirs, files in os.walk("crates"):
        dirs[:] = sorted(d for d in dirs if d != "out")
        for name in sorted(files):
            path = os.path.join(folder, name)
            if not name.endswith((".antt", ".rt", ".edit")):
                continue
            with open(path, encoding="utf-8") as f:
                old = f.read()
            if name.endswith(".rt"):
                new = turn_lines(old, names, "//", turn_code)
            elif name.endswith(".antt"):
                new = turn_lines(old, names, "--", turn)
            else:
                new = turn_edit(old, names)
            if new != old:
                turned += 1
                with open(path, "w", encoding="utf-8") as f:
                    f.write(new)
    print(f"spell: {turned} files turned")


main()
