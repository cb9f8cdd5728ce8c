#!/usr/bin/env python3
"""Brings the names of this repository's definitions and lemmas to the spelling of today's Rattle.

    tools/respell.py before     before the kit's port.py runs: a lemma that would fall together with a definition of another spelling gets
                                `-lem` after its name, and a fact that is spelled as a word is spelled as a type
    tools/respell.py after      after it: words in snake case, a prime as an apostrophe, and the crate `bytes`, named as one of the kit's, as
                                `octets`

Functions of src/, names exported for C, strings, inputs and outputs keep their names.
"""
import collections
import glob
import os
import re
import subprocess
import sys

DEFINED = re.compile(
    r"^\s*(?:abbrev |unfoldable )*(?:pub )?(?:abbrev |unfoldable |data |record )*([^\s:{}()]+)(?:\s*\{[^}]*\})*\s*:(?:\s|$)(.*)$", re.M)
NAME = r"A-Za-z0-9_'′\-"
TYPED = ("-gives", "-Post")


def files(*endings):
    found = []
    for ending in endings:
        found += glob.glob(f"crates/**/*{ending}", recursive=True)
    return sorted(p for p in found if "/out/" not in p and os.path.isfile(p))


def rewrite(paths, turn):
    for path in paths:
        with open(path, encoding="utf-8", newline="") as f:
            was = f.read()
        now = turn(was)
        if now != was:
            with open(path, "w", encoding="utf-8", newline="") as f:
                f.write(now)


def snake(word):
    word = re.sub(r"([a-z0-9])([A-Z])", r"\1_\2", word)
    return word.lower()


def camel(word):
    return "".join(part[:1].upper() + part[1:] for part in re.split(r"[-_]", word))


def before():
    """A name with dashes and a definition in camel case that would both be the same words with underscores; and facts named as words."""
    spelled = collections.defaultdict(set)
    turned = {}
    for path in files(".antt"):
        with open(path, encoding="utf-8") as f:
            for name, kind in DEFINED.findall(f.read()):
                if name[0].islower():
                    spelled[snake(name).replace("-", "_")].add(name)
                    if name.endswith(TYPED) or name == "asked-for":
                        turned[name] = camel(name)
    for names in spelled.values():
        if len(names) > 1:
            turned.update({name: name + "-lem" for name in names if "-" in name and name not in turned and name != "in-turn"})
    words = re.compile(rf"(?<![{NAME}.])(?<!\s\.)({'|'.join(sorted(map(re.escape, turned), key=len, reverse=True))})(?![{NAME}])")
    rewrite(files(".antt", ".edit"), lambda text: words.sub(lambda m: turned[m[1]], text))
    return turned


PART = re.compile(r"(?<![A-Za-z0-9_'])([a-z][a-z0-9_]*[A-Z][A-Za-z0-9_]*)")


def respelled(text):
    text = text.replace("′", "'")
    text = PART.sub(lambda m: snake(m[1]), text)
    return re.sub(r"-lem(?![A-Za-z0-9_'-])", "_lem", text.replace("get_d-", "get_or-"))


def after():
    rewrite(files(".antt", ".edit"), respelled)
    rewrite([p for p in files(".rt") if "/src/" in p], lambda text: "\n".join(map(respelled_line, text.split("\n"))))
    if os.path.isdir("crates/bytes"):
        subprocess.run(["git", "mv", "crates/bytes", "crates/octets"], check=True)
    rewrite(files(".antt", ".edit"), lambda text: text.replace("Rattle.bytes.", "Rattle.octets.").replace("Rattle·bytes·", "Rattle·octets·"))
    rewrite(files(".rt", ".edit"), lambda text: re.sub(r"(?<![\w.])bytes::", "octets::", text.replace("Rattle.bytes.", "Rattle.octets.")))
    with open("crates.txt", encoding="utf-8") as f:
        lines = f.read()
    with open("crates.txt", "w", encoding="utf-8") as f:
        f.write(re.sub(r"\bbytes\b", "octets", lines))


def respelled_line(line):
    """A line of source: what stands in a string stays."""
    parts = re.split(r'("(?:[^"\\]|\\.)*")', line)
    return "".join(part if i % 2 else respelled(part) for i, part in enumerate(parts))


if __name__ == "__main__":
    os.chdir(os.path.join(os.path.dirname(os.path.abspath(__file__)), ".."))
    if sys.argv[1:] == ["before"]:
        for name, now in sorted(before().items()):
            print(name, now)
    elif sys.argv[1:] == ["after"]:
        after()
    else:
        sys.exit(__doc__)
