#!/usr/bin/env python3
"""Counts the places of docs/DESIGN-PASS.md in the crates' sources.

tools/places.py [-l] [-p POINT] [COMMIT]: of the work tree, or of a commit; -l lists them.
tools/places.py --table OLD: a row for each point, of a commit beside the work tree.
tools/places.py --kept: each line `// Kept: ..`, with where it stands.

What counts as a place, in src/ but for specs:
1. An enum of two variants of which one is bare, or with a variant Refused, Malformed or Unreadable,
   but for one that is the error of some Result; a struct with a field that is a bool; a function
   whose contract answers a refusal's number (`code (fault ..`), or that takes a place, a kind, a
   filter, `opened` or `after` as a number.
2. Functions outside capi_c whose bodies (14 words and more) are the same but for names, numbers and
   types of numbers: a place for each such group.
3. A `while` whose condition compares something that the loop assigns, however it is assigned.
4. A function whose name says that it compares, orders, converts or prints: same_, is_same, put_byte,
   put_text, put_decimal, put_entry, .._flag, .._entry, given_, number_at, float_at, ahead, is_lower,
   one_if, number, min, max, abs.
5. Three parameters in a row that three functions have, outside capi and capi_c, and a `requires`
   clause that three contracts have: a place for each such group.
6. A slice with a number behind it that is named n, used, count, at, from, dir_used, ncell or end.
7. A function that takes a bool, or a place as a number.
8. Of proofs/: answers in Answers.antt, lemmas that were copied for a place of the code (a name with
   -- in it), and lines above 200 characters.
A place is kept where a line `// Kept: ..` stands above its function, struct or loop or inside it; a
group, where one stands at each of its functions (of twins, at each but the first).
"""
import re
import subprocess
import sys
import textwrap
from collections import defaultdict


def files_of(commit):
    """Every file of the crates with its text."""
    if commit:
        names = subprocess.run(["git", "ls-tree", "-r", "--name-only", commit, "crates"],
                               capture_output=True, text=True, check=True).stdout.split("\n")
    else:
        names = subprocess.run(["git", "ls-files", "crates"], capture_output=True, text=True,
                               check=True).stdout.split("\n")
    for name in names:
        if re.fullmatch(r"crates/[^/]+/(src|specs|proofs)/.*\.(rt|antt)", name):
            if commit:
                text = subprocess.run(["git", "show", f"{commit}:{name}"], capture_output=True,
                                      text=True, check=True).stdout
            else:
                try:
                    text = open(name).read()
                except FileNotFoundError:
                    continue
            yield name, text


FN = re.compile(r"^( *)(?:pub(?:\([a-z]+\))? )?(?:unsafe )?(?:const )?(?:extern \"C\" )?fn (\w+)", re.M)


def close(text, at, opening="{", closing="}"):
    depth = 0
    while at < len(text):
        if text[at] == opening:
            depth += 1
        elif text[at] == closing:
            depth -= 1
            if depth == 0:
                return at + 1
        at += 1
    return at


class Function:
    def __init__(self, file, name, text, start, end, head, params, clauses, body):
        self.file, self.name = file, name
        self.line = text.count("\n", 0, start) + 1
        self.head, self.params, self.clauses, self.body = head, params, clauses, body
        before = text[:start].rstrip("\n").split("\n")
        comment = []
        while before and before[-1].strip().startswith(("//", "#[")):
            comment.append(before.pop())
        self.kept = "// Kept: " in "\n".join(comment) or "// Kept: " in text[start:end]

    def __str__(self):
        return f"{self.file}:{self.line} {self.name}"


def functions(name, text):
    for m in FN.finditer(text):
        at = text.index("(", m.end())
        if "<" in text[m.end():at]:
            at = text.index("(", close(text, text.index("<", m.end()), "<", ">"))
        end_params = close(text, at, "(", ")")
        params = [p.strip() for p in re.split(r",(?![^<\[(]*[>\])])", text[at + 1:end_params - 1])]
        params = [p for p in params if p]
        # the clauses, each in braces after its word, and then the body
        pos = end_params
        clauses = []
        while True:
            k = re.compile(r"\b(requires|ensures)\*?\s*([\w*]*)\s*\{|\{").search(text, pos)
            if not k:
                break
            open_at = text.index("{", k.start())
            end = close(text, open_at)
            if not k.group(1):
                body = text[open_at:end]
                yield Function(name, m.group(2), text, m.start(), end, text[m.start():open_at],
                               params, clauses, body)
                break
            clauses.append((k.group(1), " ".join(text[open_at + 1:end - 1].split())))
            pos = end


def shape(body):
    body = re.sub(r"//[^\n]*", "", body)
    body = re.sub(r"\b(u8|u16|u32|u64|i32|i64|usize|f64|bool)\b", "T", body)
    body = re.sub(r"\b\d[\w.]*\b", "N", body)
    words = re.findall(r"\w+|[^\s\w]", body)
    names = {}
    out = []
    for w in words:
        if re.fullmatch(r"[A-Za-z_]\w*", w) and w not in KEYWORDS:
            out.append(names.setdefault(w, f"v{len(names)}"))
        else:
            out.append(w)
    return " ".join(out)


KEYWORDS = set("let mut if else while for in return match loop as true false T N break continue".split())


def kept_lines():
    """Each line `// Kept: ..` of the work tree: its file, what it stands at, and the reason."""
    for name, text in files_of(None):
        if not name.endswith(".rt"):
            continue
        heads = [(m.start(), m.group(2)) for m in FN.finditer(text)]
        heads += [(m.start(), m.group(1)) for m in re.finditer(r"^ *(?:pub(?:\([a-z]+\))? )?(?:struct|enum|trait) (\w+)", text, re.M)]
        for m in re.finditer(r"^( *)// Kept: (.*)", text, re.M):
            above = re.match(r"(?: *(?://|#\[)[^\n]*\n)*", text[m.start():]).end() + m.start()
            at = max((h for h in heads if h[0] <= m.start()), default=(0, ""))
            yield name, dict(heads).get(above, at[1]), m.group(2)


POINTS = {
    "1": "own Option, Result, flags, numbers",
    "2": "twins",
    "3": "loops by hand",
    "4": "equality, conversion, printing by hand",
    "5": "facts and parameters together",
    "6": "a length beside a list",
    "7": "switches",
}


def print_table(old):
    """The table of the page: a row for each point."""
    before, old_proofs = count(old)
    now, proofs = count(None)
    print("| point | found | changed | kept with a reason | still to do |")
    print("| --- | --- | --- | --- | --- |")
    for k, what in POINTS.items():
        kept = sum(1 for _, kept in now[k] if kept)
        found, left = len(before[k]), len(now[k])
        print(f"| {k} {what} | {found} | {found - left} | {kept} | {left - kept} |")
    for what, a, b in zip(("answers", "copied lemmas", "lines above 200 characters"), old_proofs, proofs):
        print(f"| 8 proofs: {what} | {a:,} | {a - b:,} | {b:,} | |")


def print_kept():
    by_file = defaultdict(dict)
    for name, at, reason in kept_lines():
        by_file[name].setdefault(reason, []).append(f"`{at}`")
    for i, (name, reasons) in enumerate(by_file.items()):
        print(("\n" if i else "") + f"`{name}`:\n")
        for reason, places in reasons.items():
            print("\n".join(textwrap.wrap(f"{', '.join(places)}: {reason}", 100, initial_indent="- ", subsequent_indent="  ",
                                          break_long_words=False, break_on_hyphens=False)))


def count(commit):
    """The places of each point, each with whether it is kept, and the three numbers of point 8."""
    found = {k: [] for k in "1 2 3 4 5 6 7 8".split()}
    fns = []
    answers = copies = long_lines = 0
    files = list(files_of(commit))
    errors = {e for name, text in files if "/src/" in name for e in re.findall(r"Result<.*?, (\w+)>", text)}
    for name, text in files:
        if "/specs/" in name:
            continue
        if name.endswith(".antt"):
            if "/Answers.antt" in name:
                answers += len(re.findall(r"^pub [^ ]+ : goal\.", text, re.M))
            copies += len(re.findall(r"^[a-z_0-9-]+--\S+ :", text, re.M))
            long_lines += sum(1 for line in text.split("\n") if len(line) > 200)
            continue
        here = list(functions(name, text))
        fns += here
        # 1: enums of the shape of Option or Result
        for m in re.finditer(r"((?:^ *//[^\n]*\n|^ *#\[[^\n]*\n)*)^ *(?:pub(?:\([a-z]+\))? )?enum (\w+)[^{]*\{", text, re.M):
            body = text[m.end():close(text, m.end() - 1)]
            variants = [v.strip() for v in re.split(r",\s*(?![^({]*[)}])", re.sub(r"//[^\n]*", "", body).rstrip("}\n ")) if v.strip()]
            bare = [v for v in variants if re.fullmatch(r"\w+(\s*=\s*\d+)?", v)]
            refused = any(re.match(r"(Refused|Malformed|Unreadable)\b", v) for v in variants)
            if m.group(2) not in errors and (refused or (len(variants) == 2 and len(bare) == 1)):
                line = text.count("\n", 0, m.start(2)) + 1
                kept = "// Kept: " in m.group(1) or "// Kept: " in body
                found["1"].append((f"{name}:{line} enum {m.group(2)}", kept))
        # 1: a flag beside a value
        for m in re.finditer(r"((?:^ *//[^\n]*\n|^ *#\[[^\n]*\n)*)^ *(?:pub(?:\([a-z]+\))? )?struct (\w+)[^{;]*\{", text, re.M):
            body = text[m.end():close(text, m.end() - 1)]
            if re.search(r": bool\b", body):
                line = text.count("\n", 0, m.start(2)) + 1
                found["1"].append((f"{name}:{line} struct {m.group(2)} with a flag",
                                   "// Kept: " in m.group(1) or "// Kept: " in body))
        for f in here:
            told = " ".join(c for w, c in f.clauses if w == "ensures")
            # 1: a number that stands for a refusal, a kind or no value
            if "code (fault" in told or re.search(r"\b(place|kind|filter|opened|after): (u64|i32|isize)\b", f.head):
                found["1"].append((f"{f} number", f.kept))
            # 3: loops that count by hand
            code = re.sub(r"//[^\n]*", lambda m: " " * len(m.group(0)), f.body)
            for m in re.finditer(r"\bwhile\b(?! let)[^{]*\{", code):
                loop = code[m.start():close(code, m.end() - 1)]
                compared = re.search(r"[<>]|!=|==", m.group(0))
                if compared and any(re.search(r"(?<![.\w])" + w + r"(\.\w+)* ([-+*/]?=) ", loop)
                                    for w in re.findall(r"(?<![.\w])[a-z]\w*", m.group(0)[5:])):
                    before = f.body[:m.start()].rstrip().split("\n")[-1]
                    found["3"].append((f"{f} {' '.join(m.group(0).split())[:40]}",
                                       "// Kept: " in before or f.kept))
            # 4: equality, order, conversion and printing by hand
            if re.match(r"(same_|is_same|put_(byte|text|decimal|entry)|\w+_(flag|entry)$|given_|number_at|float_at|ahead$|is_lower$|one_if$|number$|min$|max$|abs$)", f.name):
                found["4"].append((str(f), f.kept))
            # 7: a switch on which step to run
            if re.search(r"\b\w+: bool\b", ", ".join(f.params)) or re.search(r"\bplace: u64\b", f.head):
                found["7"].append((str(f), f.kept))
            # 6: a length or an index beside a list
            for i in range(len(f.params) - 1):
                if re.fullmatch(r"\w+: &(mut )?\[[^;\]]*\]", f.params[i]) and re.fullmatch(
                        r"(n|used|count|at|from|dir_used|ncell|end): usize", f.params[i + 1]):
                    found["6"].append((f"{f} {f.params[i]}, {f.params[i + 1]}", f.kept))
                    break
    # 2: functions of one shape in one crate or in several
    shapes = defaultdict(list)
    for f in fns:
        s = shape(f.body)
        if len(s.split()) >= 14 and "/capi_c/" not in f.file:
            shapes[s].append(f)
    for group in shapes.values():
        if len(group) > 1:
            found["2"].append((" = ".join(str(f) for f in group), all(f.kept for f in group[1:])))
    # 5: three or more parameters that travel together, and facts of three or more contracts
    together = defaultdict(list)
    for f in fns:
        if "/capi/" in f.file or "/capi_c/" in f.file:
            continue
        plain = [p for p in f.params if ":" in p]
        for i in range(len(plain) - 2):
            together[", ".join(re.sub(r"&(mut )?", "&", p) for p in plain[i:i + 3])].append(f)
    for key, group in sorted(together.items()):
        if len({(g.file, g.line) for g in group}) >= 3:
            found["5"].append((f"{len(group)} functions: {key}", all(g.kept for g in group)))
    facts = defaultdict(list)
    for f in fns:
        for w, c in f.clauses:
            if w == "requires":
                facts[c].append(f)
    for key, group in sorted(facts.items()):
        if len(group) >= 3:
            found["5"].append((f"{len(group)} contracts: {key[:100]}", all(g.kept for g in group)))
    return found, (answers, copies, long_lines)


def main():
    args = sys.argv[1:]
    if "--kept" in args:
        return print_kept()
    if "--table" in args:
        return print_table(args[args.index("--table") + 1])
    only = args[args.index("-p") + 1] if "-p" in args else None
    rest = [a for i, a in enumerate(args) if not a.startswith("-") and (i == 0 or args[i - 1] != "-p")]
    found, proofs = count(rest[0] if rest else None)
    for k, what in POINTS.items():
        if only and k != only:
            continue
        kept = sum(1 for _, kept in found[k] if kept)
        print(f"{k} {what}: {len(found[k])}, of which kept with a reason {kept}")
        if "-l" in args:
            for place, kept in found[k]:
                print(f"    {'kept ' if kept else ''}{place}")
    if not only or only == "8":
        print("8 proofs: {} answers, {} copied lemmas, {} lines above 200 characters".format(*proofs))


if __name__ == "__main__":
    main()
