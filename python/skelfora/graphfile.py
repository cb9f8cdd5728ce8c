"""The graph file, as docs/FORMATS.md has it: what its refusals mean, and how one is read in."""
from __future__ import annotations

from . import library
from .faults import Fault, reason

LETTERS = b"BG"

# What the numbers that refuse a graph file mean.
MEANING = {
    1: "shorter than it must be: cut off, or no graph file at all",
    2: "no graph file: it does not begin with the bytes 66 71 and the edition, 1 or 2",
    3: "more than 128 activities, not the edition for them (1 up to 64, 2 above), or more rows of a relation than 64, in edition 2 than 128",
    4: "an offset is not 9 times the earlier rows, in edition 2 17 times, or bytes follow the end",
    5: "an event, a marking or a row that is not below the number of activities or not among the events",
    6: "a row is empty, or its key is not above the one before",
}


def read(path: str) -> bytes:
    """A graph file, and of a longer one as much as shows that it is."""
    try:
        with open(path, "rb") as file:
            return file.read(library.GRAPH_ROOM + 1)
    except OSError as error:
        raise Fault(f"can't read {path}: {reason(error)}") from error


def events(file: bytes) -> list[int]:
    """The steps that the graph knows, by number."""
    return library.members(file[4 : 4 + library.set_size(file)])
