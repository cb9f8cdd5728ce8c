#!/usr/bin/env python3
"""No dead reference in docs/RULES.md: each file named there stands under crates/, and each name after a file is declared in it."""
import os
import re
import sys

ROOT = os.path.join(os.path.dirname(os.path.abspath(__file__)), "..")
FILE = re.compile(r"^(?!CRATE)[\w./+-]+/[\w./+-]+\.(antt|rt|edit)$")
KINDS = r'(?:pub |pub\(crate\) |unfoldable |abbrev |extern "C" |record |data |ruleset |fn |const |struct |enum |type |wrong: )*'


def declared(name, text):
    return re.search(r"(?m)^\s*" + KINDS + re.escape(name) + r"(?![\w-])", text) or (name.startswith("'") and name in text)


def dead(cell):
    text = None
    for item in re.findall(r"`([^`]+)`", cell):
        if FILE.match(item):
            path = os.path.join(ROOT, "crates", item)
            text = open(path, encoding="utf-8").read() if os.path.exists(path) else None
            if text is None and not item.startswith(("specs/", "src/")):
                yield item
        elif text and re.match(r"^[\w'-]+$", item) and not declared(item, text):
            yield item


bad = 0
for number, line in enumerate(open(os.path.join(ROOT, "docs/RULES.md"), encoding="utf-8"), 1):
    for cell in line.split("|") if line.startswith("|") else [line]:
        for item in dead(cell):
            print(f"docs/RULES.md:{number}: {item} is not there")
            bad += 1
sys.exit(bad != 0)
