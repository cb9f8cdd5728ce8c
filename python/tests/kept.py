"""The texts of the nine commands, as they were when each stood at the root by itself: fixed runs, and what each printed, said, wrote and
ended with. `kept.printed` is what `played` gave on the tree before they moved (30029b5), with a door that starts `./list` for list."""
import hashlib
import re

import pages
from trial import ROOT, log_bytes

# A command as the door has it.
OTHER_NAMES = re.compile(r"\bskelfora (?:log|list|call|desk|marks|nightly|year|classroom|library)\b")

# A day at the desk.
DAY = b"open\nopen\nstep 0 2\nstep 0 0\nclose 0\nshow\nshow 0\nway 0\nstep 0 2\nclose 0\nshow\nstep 9 0\nsteps\nstep 1 x\n"

# Runs in one folder, one after the other: the command's words, and what is on standard input, if anything.
RUNS = [
    ("log data/calls.csv calls.log", None),
    ("log data/calls.xes xes.log", None),
    ("log data/terminal.csv terminal.log", None),
    ("log --once data/calls.csv once.log", None),
    ("log --lines - may.log", b"Request,Survey,Assign\n"),
    ("log --show calls.log", None),
    ("log --show --names calls.names cut.log", None),
    ("log --show --names few.names calls.log", None),
    ("log - none.log", b"call,step\nV1,\n"),
    ("log nosuch.csv none.log", None),
    ("log calls.csv", None),
    ("log data/calls.csv few.names", None),
    ("list data/L.log", None),
    ("list full data/L.log", None),
    ("list", b"BL\1\1\1\0\0\0\2\0\0\0"),
    ("list calls.log", None),
    ("list --names calls.names calls.log", None),
    ("list full --names calls.names calls.log", None),
    ("list terminal.log", None),
    ("list cut.log", None),
    ("list --names few.names calls.log", None),
    ("list dark calls.log", None),
    ("list nosuch.log", None),
    ("call calls.log Request Survey Assign Seal Amend", None),
    ("call light calls.log request Wave Waive Survey Request", None),
    ("call data/L.log 1 0 2 1", None),
    ("call crates/cases/data/class-again.graph 0 1 3 2 77 1 2", None),
    ("call crates/cases/data/class-waive.graph", None),
    ("call terminal.log Announce\\ call", None),
    ("call cut.log 0", None),
    ("call light crates/cases/data/class-again.graph 0", None),
    ("call data/L.log x", None),
    ("desk --mine data/L.log", DAY),
    ("desk --names calls.names --mine calls.log", b"open\nstep 0 Request\nstep 0 Request\nstep 0 Seal\nshow 0\nway 0\nstep 0 Moor\n"),
    ("desk crates/cases/data/sample.graph", b"open\n" * 33 + b"close 7\nshow\n"),
    ("desk calls.log", b"open\n"),
    ("desk", b"open\n"),
    ("marks crates/cases/data/sample.graph six.log six.labels", None),
    ("marks --guesses six.guesses six.labels", None),
    ("marks crates/cases/data/sample.graph six.log six.guesses few.names", None),
    ("marks crates/cases/data/sample.graph data/L.log six.labels", None),
    ("marks data/L.log data/L.log six.labels", None),
    ("nightly months", None),
    ("nightly nosuch", None),
    ("year data/L.log may.log", None),
    ("year full --save year.tally data/L.log may.log", None),
    ("year --names calls.names year.tally calls.log", None),
    ("year data/L.log cut.log", None),
    ("year terminal.log", None),
    ("year --save calls.names data/L.log", None),
    ("classroom", None),
    ("library", None),
]


def put(folder):
    """The files beside those of the repository."""
    sample = folder.get("data/L.log")
    folder.put("cut.log", sample[:-1])
    folder.put("few.names", "Request\nInspect\n")
    # on the sample's graph: yes, yes, done and not accepting, 10, yes, and an activity that it lacks
    folder.put("six.log", log_bytes(4, [0, 1, 2], [0, 2], [0], [2], [], [3]))
    folder.put("six.labels", "101011\n")
    folder.put("six.guesses", "110010\n")
    folder.make("months")
    for month, log, labels in (("may", sample, b"10"), ("june", sample, b"111"), ("cut", b"BL", b"1")):
        folder.put(f"months/{month}.log", log)
        folder.put(f"months/{month}.labels", labels)
    folder.put("months/july.log", sample)


def played(folder, door):
    """All runs, as one text. `door` gives the words that start a command."""
    put(folder)
    parts = []
    for line, data in RUNS:
        name, *rest = [word.replace("\0", " ") for word in line.replace("\\ ", "\0").split()]
        before = folder.files()
        gave = folder.run(*door(name), *rest, data=data)
        wrote = [file for file, data in sorted(folder.files().items()) if before.get(file) != data]
        said = as_today(pages.PROGRESS.sub("", gave.err).replace(ROOT, "")).splitlines()
        beside = told("said", said) + told("wrote", [f"{file} {hashlib.sha256(folder.get(file)).hexdigest()}" for file in wrote])
        parts.append(f"$ {line}\n{gave.out.decode()}{beside}status {gave.status}\n\n")
    return "".join(parts)


def told(what, lines):
    return "".join(f"{what}: {line}\n" for line in lines)


def as_today(said):
    """What the commands say, with each called as it is today."""
    return re.sub(r"\./(log|list|call|desk|marks|nightly|year|classroom|library)\b", r"skelfora \1", said)
