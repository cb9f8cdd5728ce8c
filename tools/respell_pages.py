#!/usr/bin/env python3
"""Brings the names of definitions and lemmas in the pages to today's spelling.

    tools/respell_pages.py [COMMIT]     COMMIT: where the names stood in their older spelling, 30029b5 if left out

A word between backquotes is turned where the crates' sources had it at that commit, have it no more, and have one that is the same but
for its spelling: words in snake case, a prime as an apostrophe, a dash as an underscore, `_lem` where a lemma would have met a
definition. The crate `bytes` is named `octets`. A function's proof is cited by the file of its folder that there is; where the checker
finds it, by the source. What a page names that the sources had and have under no such name is printed: it is to be looked up. """
import glob
import io
import os
import re
import subprocess
import sys
import tarfile

ROOT = os.path.join(os.path.dirname(os.path.abspath(__file__)), "..")
WORD = r"[A-Za-z_][A-Za-z0-9_'′-]*[A-Za-z0-9_'′]|[A-Za-z]"
CRATE = re.compile(r"`bytes(?=[/`:]|\.specs|\.proofs)|Rattle·bytes\b")


def words_in(text):
    """The words of a source, without those of its comments, which may still have a name that is gone. One with a dash counts where it is
    declared."""
    found = set(re.findall(WORD, re.sub(r"(?m)(^|\s)(--|//).*$", "", text)))
    declared = set(re.findall(r"(?m)^\s*(?:(?:pub|abbrev|unfoldable|data|record)\s+)*([^\s:(){}]+)(?=\s*(?:[{(].*)?:\s)", text))
    return {word for word in found if "-" not in word or word in declared}


def words_now():
    found = set()
    for ending in ("antt", "rt"):
        for path in glob.glob(os.path.join(ROOT, "crates", "*", "*", "**", f"*.{ending}"), recursive=True):
            if "/out/" not in path:
                with open(path, encoding="utf-8") as file:
                    found |= words_in(file.read())
    return found


def words_then(commit):
    packed = subprocess.run(["git", "archive", commit, "crates"], cwd=ROOT, check=True, capture_output=True).stdout
    found = set()
    with tarfile.open(fileobj=io.BytesIO(packed)) as files:
        for member in files:
            if member.isfile() and member.name.endswith((".antt", ".rt")):
                found |= words_in(files.extractfile(member).read().decode("utf-8"))
    return found


def spellings(word):
    """What a name may be today, the likeliest first."""
    plain = word.replace("′", "'")
    snake = re.sub(r"([a-z0-9])([A-Z])", r"\1_\2", plain)
    snake = snake[:1] + snake[1:].lower() if word[:1].isupper() else snake.lower()
    camel = "".join(part[:1].upper() + part[1:] for part in re.split("[-_]", plain))
    under = snake.replace("-", "_")
    lemmas = [plain + "_lem", snake + "_lem"] if "-" in word else []
    return [plain, *lemmas, snake, under, under + "_lem", camel]


PROOF = re.compile(r"`((?:crates/)?[a-z_]+)/proofs/([\w/]+)/Proof\.antt`")


def proof(found):
    """Where the proof of a function stands today."""
    crate, function = found.groups()
    for file in ("Proof", "Answers", "Invariants"):
        path = f"{crate}/proofs/{function}/{file}.antt"
        if os.path.exists(os.path.join(ROOT, path if crate.startswith("crates/") else f"crates/{path}")):
            return f"`{path}`"
    module = function.split("/")[0] if "/" in function else "lib"
    return f"`{crate}/src/{module}.rt`, found by the checker"


class Page:
    def __init__(self, then, now):
        self.then, self.now, self.turned, self.unknown = then, now, {}, {}

    def word(self, found):
        word = found.group(0)
        if word in self.now or word not in self.then:
            return word
        for spelled in spellings(word):
            if spelled in self.now:
                self.turned[word] = spelled
                return spelled
        self.unknown[word] = self.unknown.get(word, 0) + 1
        return word

    def respelled(self, text):
        """The text, with the words between backquotes turned; code blocks are left as they are."""
        parts = re.split(r"(```.*?```|`[^`\n]+`)", text, flags=re.S)
        for i in range(1, len(parts), 2):
            if not parts[i].startswith("```"):
                parts[i] = re.sub(WORD, self.word, parts[i])
        return PROOF.sub(proof, CRATE.sub(lambda m: m.group(0).replace("bytes", "octets"), "".join(parts)))


def main(words):
    then, now = words_then(words[0] if words else "30029b5"), words_now()
    for path in sorted(glob.glob(os.path.join(ROOT, "docs", "*.md")) + [os.path.join(ROOT, "README.md")]):
        name, page = os.path.relpath(path, ROOT), Page(then, now)
        with open(path, encoding="utf-8") as file:
            was = file.read()
        text = page.respelled(was)
        if text != was:
            with open(path, "w", encoding="utf-8") as file:
                file.write(text)
            print(f"{name}: {len(page.turned)} names turned")
        for word in sorted(page.unknown):
            print(f"{name}: `{word}` has no such name today")


if __name__ == "__main__":
    main(sys.argv[1:])
