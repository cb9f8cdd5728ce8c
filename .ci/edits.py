#!/usr/bin/env python3
"""The wrong versions of the crates: each must be refused where it says, for a goal of its own. They are kept in
crates/CRATE/wrong/LABEL.edit.

A file holds many wrong versions, which are tried together on one copy of the crate. So each has a name and says which proof refuses it:

    file: src/step.rt
    wrong: eight_for_nine
    refuses: step/ask
    old:     if !events.has(a) {
    new:     if !m.included.has(a) {

`file:` holds until the next one. An `old:` text stands in its file just once, as the pairs before have left it; `new:` comes in its
stead. `refuses:` is a folder of the crate's proofs/, that of a function, or a file there, as `Cases.antt`; a second word names a goal or
a theorem in it. A refusal counts only as an error right there that is no echo of another and no misfit of the proof's shape. The name of
a goal has the condition in it that leads there, so a wrong condition takes the name away: a line `renames: OLD NEW` has the copy's
answers of that folder say NEW for OLD, and the goal is refused with the answer that it had. A line `without:` names files of proofs/ that
the copy does without, for their time: none that a `refuses:` of the file names, and none that a file which stays imports. Any other line,
as one that begins with #, is passed over.

    .ci/edits.py --fit [CRATE..]       only whether each `old:` text still stands where it says, once, and docs/STATEMENTS.md names the
                                       same wrong versions; checks nothing
    .ci/edits.py --try CRATE [LABEL..] has rt prove CRATE where it has changed, then tries its wrong versions, or those of the files named
    .ci/edits.py --alone CRATE [NAME..] the same with each wrong version, or those named, tried by itself
    .ci/edits.py --gate ENDED          tries all, those of a crate as soon as rt has built it; where the file ENDED is there, rt has ended
    .ci/edits.py [CRATE..]             where each wrong version was refused, of what was tried before
"""
import collections
import contextlib
import glob
import os
import re
import signal
import subprocess
import sys
import time

sys.dont_write_bytecode = True  # a gate leaves nothing beside its own scripts
import trying

ROOT = trying.ROOT
Wrong = collections.namedtuple("Wrong", "name target fact pairs line")
# What says nothing of the wrong version itself: an error that follows from another one, and a proof that no longer fits the code's shape.
ECHOES = ["was not admitted", "were not checked", "was not checked", "cannot be checked"]
MISFITS = ["that can be named from here", "is not in scope", "is no name"]
MISFITS += ["has no field", "record `Rattle"]  # a record: of a field it lacks
MISFITS += ["this λ has", "this tuple has"]  # binders or components that no longer fit
MISFITS += ["operand is missing", "expected the end", "cannot continue"]  # what does not read
# A loop's invariant and measure are definitions, and say nothing false by themselves: an error in their file is one of shape.
ANSWERS, INVARIANTS = re.compile(r"/(Answers|Proof)\.antt$"), "/Invariants.antt"


def wrongs(path):
    """The wrong versions of an edit file, and what is wrong with the file itself."""
    found, faults = [], []
    for number, line in enumerate(open(path, encoding="utf-8"), 1):
        key, _, value = line.rstrip("\n").partition(":")
        value = value.strip()
        if key == "wrong":
            found.append(Wrong(value, None, None, 0, number))
        elif key in ("refuses", "new") and not found:
            faults.append(f"line {number} stands before the first `wrong:`")
        elif key == "refuses":
            target, _, fact = value.partition(" ")
            found[-1] = found[-1]._replace(target=target, fact=fact.strip() or None)
        elif key == "new":
            found[-1] = found[-1]._replace(pairs=found[-1].pairs + 1)
    faults += [f"{w.name} has no `refuses:`" for w in found if not w.target]
    faults += [f"{w.name} changes nothing" for w in found if not w.pairs]
    claims = collections.Counter((w.target, w.fact) for w in found)
    claims.update((w.target, None) for w in found if w.fact and claims[(w.target, None)])
    faults += [f"two wrong versions claim the refusal of {' '.join(filter(None, c))}" for c, n in claims.items() if n > 1]
    return found, faults


def left_out(crate, names, targets, texts):
    """Takes files of proofs/ that belong to no function, and the lines that declare them, out of what an edit leaves; gives what speaks
    against it."""
    top = os.path.join(ROOT, "crates", crate, "proofs")
    staying = [path for path in glob.glob(os.path.join(top, "**", "*.antt"), recursive=True) if os.path.relpath(path, top) not in names]
    texts.setdefault("proofs/Lib.antt", standing(crate, "proofs/Lib.antt") or "")
    for name in names:
        module = re.escape(name.removesuffix(".antt"))
        texts["proofs/Lib.antt"], lines = re.subn(rf"(?m)^(pub )?mod {module}\n", "", texts["proofs/Lib.antt"])
        if lines != 1 or not name.endswith(".antt"):
            yield f"{name} is not declared in proofs/Lib.antt"
        if name in targets:
            yield f"{name} is left out, and a wrong version names it"
        for path in staying:
            if re.search(rf"\bRattle\.{crate}\.proofs\.{module}\b", open(path, encoding="utf-8").read()):
                yield f"{name} is left out, and {os.path.relpath(path, top)} imports it"
        texts[f"proofs/{name}"] = None


def standing(crate, file):
    """The text of a file that an edit names, or None: it must be one of the crate's src/, specs/ or proofs/, and no link."""
    path = os.path.join(ROOT, "crates", crate, file)
    inside = file.startswith(("src/", "specs/", "proofs/")) and ".." not in file.split("/")
    if not inside or not os.path.isfile(path) or os.path.islink(path):
        return None
    with open(path, encoding="utf-8") as text:
        return text.read()


def renamed(crate, target, old, new, texts):
    """Has the answers of a function say another name for a goal; gives what speaks against it."""
    found = False
    for file in (f"proofs/{target}/{name}.antt" for name in ("Invariants", "Answers", "Proof")):
        text = texts.get(file) or standing(crate, file)
        if old and text and old in text:
            texts[file], found = text.replace(old, new), True
    if not found:
        yield f"no answer in proofs/{target} has {old}, which `renames:` names"


def lines_of(path, name):
    """The numbered lines of an edit file, as key and value; with a name only that wrong version's, and those that hold for all."""
    wrong = None
    for number, line in enumerate(open(path, encoding="utf-8"), 1):
        key, _, value = line.rstrip("\n").partition(":")
        wrong = value.strip() if key == "wrong" else wrong
        if name in (None, wrong) or key in ("file", "without"):
            yield number, key, value.removeprefix(" ")


def applied(crate, path, name=None):
    """The files that an edit file changes, as it leaves them (None: not there), and what does not fit; with a name, of one wrong
    version."""
    texts, faults, without, file, old, target = {}, [], [], None, None, None
    for number, key, value in lines_of(path, name):
        if key == "file":
            file, old = value, None
            texts.setdefault(file, standing(crate, file))
            if texts[file] is None:
                faults.append(f"line {number}: the crate has no such file")
        elif key == "without":
            without += value.split()
        elif key == "refuses":
            target = value.split()[0]
        elif key == "renames":
            faults += [f"line {number}: {fault}" for fault in renamed(crate, target, *(value.split() + ["", ""])[:2], texts)]
        elif key == "old":
            old = value
        elif key == "new":
            times = (texts.get(file) or "").count(old) if old else 0
            if times != 1:
                faults.append(f"line {number}: the `old:` text before it stands {times} times in its file")
            else:
                texts[file] = texts[file].replace(old, value)
            old = None
    faults += left_out(crate, without, {w.target for w in wrongs(path)[0]}, texts) if without else []
    return texts, faults


def refusals(log):
    """By proof, the goals and lemmas that were refused there, each with what the checker said of it first."""
    by, misfits = collections.defaultdict(list), set()
    for line in open(log, encoding="utf-8", errors="replace"):
        error = re.match(r"\S*?/proofs/(\S+?):\d+:\d+: error: (?:`([^`]+)`: )?(.*)", line)
        if error:
            place, fact, said = error.groups()
            if any(words in said for words in MISFITS) or place.endswith(INVARIANTS):
                misfits.add(ANSWERS.sub("", place.removesuffix(INVARIANTS)))
            elif not any(words in said for words in ECHOES):
                by[ANSWERS.sub("", place)].append((fact, said))
        # goals that have no answer, so that the checker searches by itself; where answers no longer fit, one may only be lacking
        made = re.match(r"fn \S+: no proof: expected \S+ in \S*?/proofs/(\S+)/\w+\.antt; `search` did not prove ([^;]*)", line)
        if made and made.group(1) not in misfits:
            by[made.group(1)] += [(fact, "search") for fact in re.findall(r"`([^`]+)`", made.group(2))]
    return by


def judge(crate, path, name=None):
    """What is to be said of one edit file: lines that tell where each wrong version was refused, and faults; with a name, of one that was
    alone."""
    label = label_of(path, name)
    found, faults = wrongs(path)
    found = [w for w in found if name in (None, w.name)]
    log = trying.log_of(crate, label)
    if not os.path.exists(log):
        return [], faults + ["it was not tried"]
    by, told = refusals(log), []
    for w in found:
        facts = [fact for fact, _ in by.get(w.target or "", []) if w.fact in (None, fact)]
        if facts:
            told.append(f"{crate}/{label} {w.name}: refused by proofs/{w.target} at {', '.join(sorted(set(map(str, facts))))}")
        else:
            faults.append(f"{w.name} (line {w.line}) was not refused by proofs/{w.target}{' at ' + w.fact if w.fact else ''}")
    return told, faults


def named():
    """By crate, the wrong versions that docs/STATEMENTS.md names."""
    crate, names = None, collections.defaultdict(set)
    for line in open(os.path.join(ROOT, "docs", "STATEMENTS.md"), encoding="utf-8"):
        if line.startswith("## "):
            crate = line[3:].split()[0]
        elif crate:
            names[crate].update(re.findall(r"(?<!\*)\*(\w+)\*(?!\*)", line))
    return names


def label_of(path, name=None):
    return os.path.basename(path).removesuffix(".edit") + (f".{name}" if name else "")


def files(crates):
    for path in sorted(glob.glob(os.path.join(ROOT, "crates", "*", "wrong", "*.edit"))):
        crate = path.split(os.sep)[-3]
        if not crates or crate in crates:
            yield crate, path


def unnamed(crates):
    """The wrong versions that are kept and not named in docs/STATEMENTS.md, and those named and not kept."""
    stated = named()
    for crate, path in files(crates):
        names = [w.name for w in wrongs(path)[0]]
        missing = [name for name in names if name not in stated[crate]]
        yield from (f"docs/STATEMENTS.md does not name {name} of {os.path.relpath(path, ROOT)}" for name in missing)
        stated[crate].difference_update(names)
    for crate in sorted(crates or stated):
        yield from (f"docs/STATEMENTS.md: {name} is no kept wrong version of {crate}" for name in sorted(stated[crate]))


def fit(crates):
    bad = []
    for crate, path in files(crates):
        bad += [f"{os.path.relpath(path, ROOT)}: {fault}" for fault in [*wrongs(path)[1], *applied(crate, path)[1]]]
    bad += unnamed(crates)
    # where rt looks for edits of its own: nothing there would be judged
    for path in glob.glob(os.path.join(ROOT, "crates", "*", "must-fail")):
        bad.append(f"{os.path.relpath(path, ROOT)}: wrong versions stand in wrong/")
    print(*bad, sep="\n") if bad else None
    sys.exit(bool(bad))


def outcome(crate, label, ended):
    """What is wrong with a try as a whole: the checker must have refused the crate, and for its proofs."""
    with open(trying.log_of(crate, label), encoding="utf-8", errors="replace") as log:
        lines = log.read().splitlines()
    if ended.status == 0:
        return ["NOT REFUSED: the crate is still proved with these edits"]
    if ended.status == -signal.SIGKILL:
        return ["BAD EDIT: the checker was killed, for memory most likely, so it came to no verdict"]
    if ended.status != 1 or not any(line.startswith("logic=not-proved") for line in lines):
        return [f"BAD EDIT: it did not come to a verdict (exit {ended.status}); the checker said first:", *lines[:5]]
    return []


def counted(crate, label):
    """How many of the crate's modules were checked again, as the checker counts them where it was given the others."""
    with open(trying.log_of(crate, label), encoding="utf-8", errors="replace") as log:
        found = re.search(rf"(?m)^crate {crate}: modules loaded=(\d+) checked=(\d+)", log.read())
    return f"{found.group(2)} of {int(found.group(1)) + int(found.group(2))} modules" if found else "all modules"


def told_of(crate, label, ended, faults, kept):
    """The line that says how a try went, and its faults under it."""
    file, _, name = label.partition(".")
    place = f"crates/{crate}/wrong/{file}.edit" + (f", {name} alone" if name else "")
    how = "FAILED" if faults else f"{kept} refused, each by its own proof"
    print(f"{place}: {how} ({counted(crate, label)}, {ended.took:.0f} s, {ended.used:.0f} s of a processor)")
    for fault in faults:
        print(f"{place}: {fault}")
    sys.stdout.flush()


def fitting(chosen):
    """What fits of it, files with most wrong versions first, since they take longest; and how much does not fit, which it says."""
    queue, bad = [], 0
    for crate, path, name in sorted(chosen, key=lambda file: -len(wrongs(file[1])[0])):
        texts, faults = applied(crate, path, name)
        for fault in faults:
            print(f"{os.path.relpath(path, ROOT)}: {fault}")
        bad += len(faults)
        queue += [] if faults else [(crate, label_of(path, name), texts)]
    return queue, bad


def attempt(chosen, ready, at_length):
    """Tries files of wrong versions, or one of a file, and judges each as it ends. Exits with 1 if anything is not as it must be."""
    paths = {(crate, label_of(path, name)): (path, name) for crate, path, name in chosen}
    queue, bad = fitting(chosen)
    began, used, kept = time.monotonic(), 0, collections.Counter()
    with contextlib.closing(trying.tries(queue, ready)) as tries:
        for crate, label, ended in tries:
            failed = outcome(crate, label, ended)
            told, faults = ([], failed) if failed else judge(crate, *paths[crate, label])
            told_of(crate, label, ended, faults, len(told))
            print(*told, sep="\n") if told and at_length else None
            used, bad, kept[crate] = used + ended.used, bad + len(faults), kept[crate] + len(told)
    print(f"tried {len(queue)} copies with wrong versions in {time.monotonic() - began:.0f} s, {used:.0f} s of a processor")
    total(kept)
    sys.exit(bad != 0)


def total(kept):
    told = ", ".join(f"{crate} {kept[crate]}" for crate in sorted(kept))
    print(f"wrong versions refused, each by its own proof: {sum(kept.values())} ({told})")


def try_one(crate, chosen):
    """For a developer: wrong versions of a crate, against what rt proves of it now."""
    if not chosen:
        sys.exit(f"edits.py: no such wrong version in crates/{crate}/wrong")
    if subprocess.run(["rt", "check"], cwd=os.path.join(ROOT, "crates", crate), check=False).returncode != 0:
        sys.exit(f"edits.py: {crate} is not proved, so that a refusal would say nothing")
    attempt(chosen, lambda _: True, at_length=True)


def in_files(crate, labels):
    return [(c, path, None) for c, path in files([crate]) if not labels or label_of(path) in labels]


def one_by_one(crate, names):
    return [(c, path, w.name) for c, path in files([crate]) for w in wrongs(path)[0] if not names or w.name in names]


def try_all(ended):
    """For the gate, beside rt: a crate is ready as soon as rt has built it since then, and all are when rt has ended."""
    began = time.time()

    def ready(crate):
        stamp = trying.out(crate, "rlib", "stamp")
        return os.path.exists(ended) or os.path.exists(stamp) and os.path.getmtime(stamp) > began

    attempt([(crate, path, None) for crate, path in files([])], ready, at_length=False)


def tell(crates):
    kept, bad = collections.Counter(), 0
    for crate, path in files(crates):
        told, faults = judge(crate, path)
        print(*told, sep="\n") if told else None
        for fault in faults:
            print(f"{os.path.relpath(path, ROOT)}: {fault}")
        kept[crate] += len(told)
        bad += len(faults)
    total(kept)
    sys.exit(bad != 0)


def main(words):
    for number in (signal.SIGINT, signal.SIGTERM, signal.SIGHUP):  # so that the checks under way are ended too
        signal.signal(number, lambda number, _: sys.exit(128 + number))
    if words[:1] == ["--fit"]:
        fit(words[1:])
    elif words[:1] == ["--try"] and len(words) > 1:
        try_one(words[1], in_files(words[1], words[2:]))
    elif words[:1] == ["--alone"] and len(words) > 1:
        try_one(words[1], one_by_one(words[1], words[2:]))
    elif words[:1] == ["--gate"] and len(words) == 2:
        try_all(words[1])
    elif not any(word.startswith("-") for word in words):
        tell(words)
    else:
        sys.exit(__doc__)


if __name__ == "__main__":
    main(sys.argv[1:])
