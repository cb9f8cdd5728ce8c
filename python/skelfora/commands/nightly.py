"""skelfora nightly: for each log of a folder with labels beside it, the listing of its full graph and the marks of that graph."""
from __future__ import annotations

import os

from .. import build, labels, logfile
from ..command import Command, Parser, say, write
from ..faults import REFUSED, Fault, reason
from ..library import FULL, Library
from .marks import meaning

ABOUT = """\
The nightly run: for each log of a folder (NAME.log) that has labels beside it (NAME.labels), a line with its name, the listing of its full
graph, and the marks of that graph. Logs go by name. Those without labels are named in one line, on standard error.

  skelfora nightly calls      all logs of the folder calls"""

STATUS = "exit status: 0 all were listed and marked, 1 a log or its labels were refused, 2 used wrongly, 3 something could not be read or built"

LOG, LABELS = ".log", ".labels"


def parser() -> Parser:
    words = Parser("nightly", usage="FOLDER", description=ABOUT, epilog=STATUS)
    words.add_argument("folder", metavar="FOLDER", help="where the logs and their labels are")
    return words


def logs(folder: str) -> tuple[list[str], list[str]]:
    """The names of the logs, without their ending: those with labels, and those without."""
    try:
        there = sorted(os.listdir(folder))
    except OSError as error:
        raise Fault(f"can't read {folder}: {reason(error)}") from error
    found = [name[: -len(LOG)] for name in there if name.endswith(LOG)]
    return [name for name in found if name + LABELS in there], [name for name in found if name + LABELS not in there]


def listed(library: Library, path: str) -> tuple[bytes, int]:
    """The text of one log, and the number of what refused it, 0 where nothing did. The listing is that of the graph which is marked, so the
    profile is named: without an argument it would be light (02, 11/12)."""
    data, beside = logfile.read(path + LOG), labels.read(path + LABELS)
    listing = build.run("listing", data, ["full"])
    number = logfile.refusal(listing)
    if number:
        return listing, number
    _, graph = library.mine(data, FULL)
    number, text = library.marks_text(graph, data, beside)
    return listing + text, number


def main(words: list[str]) -> int:
    folder: str = parser().parse_args(words).folder
    marked, missing = logs(folder)
    library = Library()
    status = 0
    for name in marked:
        text, number = listed(library, os.path.join(folder, name))
        write(f"{name}{LOG}\n".encode() + text)
        if number:
            say(f"{name}{LOG}: {number}: {meaning(number)}")
            status = REFUSED
    if missing:
        say("no labels beside " + ", ".join(name + LOG for name in missing))
    if not marked:
        say(f"no log with labels beside it in {folder}")
    return status


COMMAND = Command("nightly", main)
