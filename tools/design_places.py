#!/usr/bin/env python3
"""Lists the places in crates/*/src that docs/DESIGN-PASS.md counts, by its points.

    tools/design_places.py            how many there are of each kind
    tools/design_places.py --list     each of them too, by file and line
    tools/design_places.py --in DIR   in another checkout, as one of the commit at which that pass began

It goes by text, and a row is a place to look at: whether a place stays, and why, the comment beside it says.
"""
import collections
import glob
import itertools
import os
import re
import sys

FN = re.compile(r"(?m)^[ \t]*(?:pub(?:\(crate\))? )?fn (\w+)(?:<[^>(]*>)?\(([^{;]*?)\)\s*(?:-> ([^{\n]*?))?\s*(?=\{|\n\s*(?:requires|ensures)|\n\{)")
# Functions that stand twice by name alone, since each crate has its own of them: what opens a program, or a module's one maker.
OWN_TO_EACH = {"main", "empty", "row", "length", "of", "open", "new", "count"}


def sources(root):
    """The files of src/, with their texts."""
    for path in sorted(glob.glob("crates/*/src/*.rt", root_dir=root)):
        with open(os.path.join(root, path), encoding="utf-8") as text:
            yield path, text.read()


def lines_with(files, pattern):
    """Each line that has a pattern, as `file:line`, with its text."""
    return [f"{path}:{n}: {line.strip()}" for path, text in files for n, line in enumerate(text.split("\n"), 1)
            if re.search(pattern, line) and not line.lstrip().startswith("//")]


def functions(files):
    """Each function: where it stands, its name, its parameters with their types, and what it gives."""
    for path, text in files:
        for m in FN.finditer(text):
            params = [" ".join(p.split()) for p in re.split(r",(?![^<(\[]*[>)\]])", m[2]) if p.strip()]
            plain = [re.sub(r"'\w+ ?", "", p) for p in params]
            yield f"{path}:{text.count(chr(10), 0, m.start()) + 1}", m[1], plain, m[3] or "()"


def twins(files):
    """Functions named for a form, and those of one name and the same parameters in two files or more."""
    named = [f"{at}: {name}" for at, name, _, _ in functions(files) if re.search(r"_(narrow|wide|few)$", name)]
    by_shape = collections.defaultdict(list)
    for at, name, params, gives in functions(files):
        if name not in OWN_TO_EACH and "/port_c/" not in at:
            by_shape[name, tuple(p.split(": ")[-1] for p in params if p.split(": ")[-1] not in ("&impl Print",)), gives].append(at)
    same = [f"{' '.join(ats)}: {name}" for (name, _, _), ats in by_shape.items() if len({a.split(":")[0] for a in ats}) > 1]
    return named + same


def together(files):
    """Two parameters, one of them lent, of which one stands in three functions or more of a crate and in none without the other."""
    seen, alone = collections.defaultdict(list), collections.Counter()
    for at, _, params, _ in functions(files):
        crate = at.split("/")[1]
        alone.update((crate, p) for p in params)
        for one, two in itertools.combinations(params, 2):
            seen[crate, one, two].append(at)
    return [f"{crate}: {one}, {two}: {len(ats)} functions" for (crate, one, two), ats in sorted(seen.items())
            if len(ats) > 2 and len(ats) in (alone[crate, one], alone[crate, two]) and "&" in one + two and "rt: &" not in one + two]


def asked(files):
    """Facts that three functions or more of a crate ask of their callers."""
    seen = collections.defaultdict(list)
    for path, text in files:
        for m in re.finditer(r"(?m)^\s*requires(?: \w+)? \{ (.*) \}$", text):
            for fact in m[1].split(" × "):
                seen[path.split("/")[1], fact.strip("() ")].append(path)
    return [f"{crate}: {fact}: {len(paths)} contracts" for (crate, fact), paths in sorted(seen.items()) if len(paths) > 2]


def places(files):
    """For each point the kinds of places, and the places of each."""
    result = r"-> (?:Answer|Judged|Found|Asked|Filled|Reading|Bare|Written|Stepped|Verdict|Replayed|Walked|Mined|Listed)\b"
    yield "1", "enums with a variant for done", lines_with(files, r"^\s+Done,")
    yield "1", "structs with an answer beside values", lines_with(files, r"^\s+pub answer: Answer")
    yield "1", "functions that give an answer, or such a struct", lines_with(files, rf"{result}|-> (?:\w+::)?Answer\b")
    yield "1", "numbers that stand for nothing", lines_with(files, r"const NO(?:NE|THING|_\w+)\b")
    yield "1", "numbers for kinds", lines_with(files, r"^(?:pub )?(?:const|static) [A-Z_]+: (?:u8|usize) = \d;")
    yield "2", "twins", twins(files)
    yield "2", "a form as a parameter", lines_with(files, r"\bwide: bool")
    yield "3", "loops that count by hand", lines_with(files, r"^\s*while\b")
    yield "4", "sets held to be the same both ways", lines_with(files, r"!\w+(?:\.\w+)?\.is_within\(all\)")
    yield "4", "conversions as functions", lines_with(files, r"fn (?:one_if|wide|number|blocker|is_done|profile_of)\(")
    yield "5", "facts that three contracts ask", asked(files)
    yield "5", "parameters together in three functions", together(files)
    yield "6", "a buffer with its place", lines_with(files, r"out: &(?:'\w+ )?mut \[u8\], at: usize|^\s*at: usize,$")
    yield "6", "buffers of a program", lines_with(files, r"let mut \w+ = \[0u8; ")
    yield "7", "a profile's number asked by hand", lines_with(files, r"if 1 < profile")


def main(arguments):
    root = arguments[arguments.index("--in") + 1] if "--in" in arguments else os.path.join(os.path.dirname(__file__), "..")
    for point, kind, found in places(list(sources(root))):
        print(f"{point}  {kind}: {len(found)}")
        if "--list" in arguments:
            print("".join(f"       {place}\n" for place in found), end="")


if __name__ == "__main__":
    main(sys.argv[1:])
