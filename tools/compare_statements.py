#!/usr/bin/env python3
"""Lays the statements of proofs/ beside those of another checkout: what a port changed of a lemma or a theorem but its proof.

    tools/compare_statements.py OTHER    OTHER is a checkout of docs/PORT.md's LANDED, brought over as that page says

It prints each declaration of crates/*/proofs/*.antt, function folders aside, whose signature is not the same there, and those that are
gone or new.
"""
import glob
import os
import re
import sys


def declared(path):
    """The declarations of a file: for each name its signature, as words, with the module parameters that it stands under."""
    found, name, lines = {}, None, []
    with open(path, encoding="utf-8") as f:
        text = [line.split(" -- ")[0].rstrip() for line in f if not line.lstrip().startswith("--")]
    for line in [*text, ""]:
        start = re.match(r"^\s*(?:abbrev |unfoldable |pub )*(?:(?:record|data) )?([^\s:(){}=]+)(?:\s*[({].*)?\s+:(?:\s|$)", line)
        module = re.match(r"^\s*module ", line)
        clause = name and re.match(rf"^\s*(?:{re.escape(name)}\b|unfolding )", line)
        if start or module or clause or not line.strip():
            if name:
                found.setdefault(name, []).append(" ".join(" ".join(lines).split()))
            name, lines = None, []
            if module:
                name, lines = "module " + line.strip(), [line]
            elif start:
                name, lines = start[1], [line]
        elif name:
            lines.append(line)
    return found


def main(other):
    root = os.path.join(os.path.dirname(os.path.abspath(__file__)), "..")
    for path in sorted(set(glob.glob("crates/*/proofs/*.antt", root_dir=root) + glob.glob("crates/*/proofs/*.antt", root_dir=other))):
        here, there = (declared(os.path.join(r, path)) if os.path.exists(os.path.join(r, path)) else {} for r in (root, other))
        for name in there:
            if name not in here:
                print(f"{path}: gone: {' | '.join(there[name])}")
            elif here[name] != there[name]:
                print(f"{path}: {name}\n    - {' | '.join(there[name])}\n    + {' | '.join(here[name])}")
        for name in here:
            if name not in there:
                print(f"{path}: new: {' | '.join(here[name])}")


if __name__ == "__main__":
    main(sys.argv[1])
