#!/usr/bin/env python3
"""Writes again what commands print on docs/DESIGN-PASS.md.

tools/page.py: between a line `<!-- COMMAND -->` and the next line `<!-- end -->` stands what the
command prints, as text where the line is `<!-- text: COMMAND -->`; the rest is written by hand. It ends with 1 where a command does, or
where the rest names a function or a type, as `CRATE::NAME`, that is not in the crate.
"""
import re
import subprocess
import sys

from places import files_of

MADE = re.compile(r"^<!-- (text: )?(python3 [^\n]*) -->\n.*?^<!-- end -->\n", re.M | re.S)
PAGE = "docs/DESIGN-PASS.md"


def main():
    text = open(PAGE).read()
    failed = False

    def made(m):
        nonlocal failed
        run = subprocess.run(m.group(2).split(), capture_output=True, text=True)
        sys.stderr.write(run.stderr)
        failed |= run.returncode != 0
        printed = run.stdout.strip("\n")
        if m.group(1):
            printed = f"```text\n{printed}\n```"
        return f"<!-- {m.group(1) or ''}{m.group(2)} -->\n\n{printed}\n\n<!-- end -->\n"

    text = MADE.sub(made, text)
    open(PAGE, "w").write(text)
    code = {}
    for name, source in files_of(None):
        if name.endswith(".rt"):
            code[name.split("/")[1]] = code.get(name.split("/")[1], "") + source
    for crate, name in re.findall(r"`(\w+)(?:::\w+)*::(\w+)`", MADE.sub("", text)):
        if crate in code and not re.search(r"\b(fn|struct|enum|trait|type) " + name + r"\b", code[crate]):
            print(f"{PAGE}: {crate} has no {name}", file=sys.stderr)
            failed = True
    return failed


if __name__ == "__main__":
    sys.exit(main())
