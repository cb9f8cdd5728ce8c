"""skelfora classroom: the rows of docs/CLASSROOM.md. The proved programs run on the page's graphs and calls each time; nothing is stored."""
from __future__ import annotations

import os
import re

from .. import build, logfile
from ..command import Command, Parser, write
from ..faults import Fault

FOLDER = os.path.join(build.ROOT, "crates", "cases", "data")

# The page's four parts, each with its graph and the log that has its traces.
PARTS = [
    ("1. Arrows read as a route", "sample.graph", "class-route.log"),
    ("2. An excluded step thought to block", "class-waive.graph", "class-waive.log"),
    ("3. A pending step that is excluded thought to keep the call open", "class-pending.graph", "class-pending.log"),
    ("4. A step shut out early that was let in again", "class-again.graph", "class-again.log"),
]

COLUMNS = ["trace", "number", "blocker", "place", "executed", "pending", "included", "open", "accepting"]

# A line of the program `cases`. It has what is enabled too (02, 6/12), which the page's rows leave to the reader.
REPLAYED = re.compile(r"replay .* trace \d+: (\d+) by (\d+) place (\d+) executed(.*) pending(.*) included(.*) enabled.* accepting (yes|no)")


def traces(log: str) -> list[str]:
    """The traces of a log, as the page writes them."""
    shown = build.run("calls", logfile.read(os.path.join(FOLDER, log))).decode()
    return ["⟨" + line.replace(" ", ",") + "⟩" for line in shown.splitlines()]


def row(trace: str, line: str) -> list[str]:
    """The cells of a row: what the program said, and beside it what is both pending and included."""
    said = REPLAYED.fullmatch(line)
    if said is None:
        raise Fault(f"the program cases said what is no replay: {line}")
    number, blocker, place, executed, pending, included, accepting = said.groups()
    both = " ".join(step for step in pending.split() if step in included.split())
    sets = [members.strip() or "none" for members in (executed, pending, included, both)]
    return [trace, number, "none" if blocker == "255" else blocker, place, *sets, accepting]


def rows(graph: str, log: str) -> list[list[str]]:
    said = build.run("cases", arguments=["replay", graph, log], folder=FOLDER).decode().splitlines()
    return [row(trace, line) for trace, line in zip(traces(log), said, strict=True)]


def aligned(cells: list[list[str]]) -> list[str]:
    widths = [max(map(len, column)) for column in zip(*cells)]
    return ["  ".join(cell.ljust(width) for cell, width in zip(line, widths)).rstrip() for line in cells]


def main(words: list[str]) -> int:
    about = "Prints the rows of docs/CLASSROOM.md: the proved replay of its traces on its graphs, by step numbers.\n\n  skelfora classroom"
    Parser("classroom", description=about).parse_args(words)
    parts = ["\n".join([title, *aligned([COLUMNS, *rows(graph, log)])]) + "\n" for title, graph, log in PARTS]
    write("\n".join(parts).encode())
    return 0


COMMAND = Command("classroom", main)
