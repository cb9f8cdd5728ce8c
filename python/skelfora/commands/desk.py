"""skelfora desk: requests from standard input, one a line, each answered with a line by the proved desk. The table lasts as long as the command."""
from __future__ import annotations

import argparse
import os
import sys

from .. import graphfile, library, logfile, names
from ..command import Command, Parser, say, write
from ..faults import REFUSED, Fault
from ..library import DONE, NO_WAY_OUT, NOT_OPEN, WAITING, Library, Sets

ABOUT = """\
The call desk: one graph, and 32 places for vessels in port, each at its own marking. Reads requests from standard input, one a line:

  open        gives the lowest free place a call at the opening state
  step P A    runs activity A at place P
  close P     frees place P, where its call may end
  way P       the shortest way to the end of the call at place P, if four steps are enough; nothing is done
  show        which places are open, and at each which activities are open
  show P      what is executed, pending, included and enabled at place P

The first three are answered by the proved library with one line: number, place, blocker (docs/FORMATS.md has the numbers).

  skelfora desk port.graph                             on the graph of a file
  skelfora desk --mine calls.log                       on the full graph of a log
  skelfora desk --names calls.names --mine calls.log   with the steps' names, in requests and answers"""

STATUS = "exit status: 0 all requests answered, 1 the graph or the log is refused, 2 used wrongly, 3 something could not be read or built"

REQUESTS = "open, step P A, close P, way P, show or show P"


class NoRequest(Exception):
    """Why a line is no request."""


def parser() -> Parser:
    words = Parser("desk", usage="[--names FILE] (GRAPHFILE | --mine LOG)", description=ABOUT, epilog=STATUS)
    words.add_argument("--mine", metavar="LOG", help="a log (docs/FORMATS.md), of which the full graph is mined")
    words.add_argument("--names", metavar="FILE", help="line k of FILE, counted from 0, is the name of activity k")
    words.add_argument("graph", metavar="GRAPHFILE", nargs="?", help="a graph file (docs/FORMATS.md)")
    return words


def meant(words: Parser, options: argparse.Namespace) -> None:
    if (options.graph is None) == (options.mine is None):
        words.error("one graph file is wanted, or --mine and a log")
    if "-" in (options.graph, options.mine):
        words.error("standard input has the requests: name a file")


def graph_of(proved: Library, options: argparse.Namespace) -> tuple[int, dict[int, str], bytes]:
    """The number with which log or file is refused, what that means, and the graph file."""
    if options.mine is not None:
        number, file = proved.mine(logfile.read(options.mine), library.FULL)
        return number, logfile.MEANING, file
    file = graphfile.read(options.graph)
    return proved.judge(file), {}, file


class Desk:
    """The library, the graph's file, the table that is lent to each request, and how steps are called."""

    def __init__(self, proved: Library, file: bytes, called: list[str] | None) -> None:
        self.library, self.file, self.called = proved, file, called
        self.table = library.buffer(library.PLACES * library.place_size(file))

    def name(self, step: int) -> str:
        return self.called[step] if self.called is not None and step < len(self.called) else str(step)

    def number_of(self, word: str) -> int:
        """The activity that is meant: its name, where names were given, or its number."""
        if self.called is not None and word in self.called:
            return self.called.index(word)
        if not is_number(word):
            raise NoRequest(f"no step is called {word!r}" if self.called is not None else f"{word!r} is no activity")
        if int(word) > 255:
            raise NoRequest("an activity is a number up to 255")
        return int(word)

    def answer(self, given: int, place: int | str) -> str:
        blocker = self.name(library.blocker(given)) if library.number(given) == WAITING else "none"
        return f"{library.number(given)} place {place} blocker {blocker}"

    def open(self) -> str:
        given = self.library.call("skelfora_desk_open", self.file, self.table)
        place = library.place(given)
        return self.answer(given, "none" if place == library.NO_PLACE else place)

    def step(self, place: int, word: str) -> str:
        given = self.library.call("skelfora_desk_step", self.file, self.table, handed(place), self.number_of(word))
        return self.answer(given, place)

    def close(self, place: int) -> str:
        return self.answer(self.library.call("skelfora_desk_close", self.file, self.table, handed(place)), place)

    def way(self, place: int) -> str:
        """As `skelfora call` has it; a place without a call is answered as by close."""
        lent = library.way()
        given = self.library.call("skelfora_desk_finish", self.file, self.table, handed(place), lent)
        if library.number(given) not in (DONE, NO_WAY_OUT):
            return self.answer(given, place)
        if library.number(given) == NO_WAY_OUT:
            return f"place {place} way out: none within {library.WAY} steps"
        steps = library.steps(lent)
        return f"place {place} way out: {self.listed(steps) if steps else 'none needed, the call may end now'}"

    def not_open(self, place: int) -> int | None:
        """What a step of no activity is answered there, on a copy of the table: 14 where the place is not open."""
        copy = library.buffer(len(self.table))
        copy.raw = self.table.raw
        given = self.library.call("skelfora_desk_step", self.file, copy, handed(place), 255)
        return given if library.number(given) == NOT_OPEN else None

    def places(self) -> str:
        """Each open place with its open activities, as the marking there holds them."""
        found = [place for place in range(library.PLACES) if self.not_open(place) is None]
        told = [f"{place}: {self.listed(self.sets(place).enabled)}" for place in found]
        return "open " + ("; ".join(told) or "none")

    def sets(self, place: int) -> Sets:
        end = library.place_size(self.file) * (place + 1)
        return library.sets(self.table.raw[end - library.marking_size(self.file) : end])

    def show(self, place: int) -> str:
        refused = self.not_open(place)
        if refused is not None:
            return self.answer(refused, place)
        told = [f"{what} {self.listed(steps)}" for what, steps in self.sets(place)._asdict().items()]
        return f"place {place} {' '.join(told)}"

    def listed(self, steps: list[int]) -> str:
        separator = ", " if self.called is not None else " "
        return separator.join(map(self.name, steps)) or "none"

    def asked(self, line: str) -> str:
        """The answer to a line."""
        word, _, rest = names.clean(line).partition(" ")
        first, _, last = rest.strip().partition(" ")
        given = [part for part in (first, last.strip()) if part]
        if (word, len(given)) == ("open", 0):
            return self.open()
        if (word, len(given)) == ("step", 2):
            return self.step(place_in(given[0]), given[1])
        if (word, len(given)) == ("close", 1):
            return self.close(place_in(given[0]))
        if (word, len(given)) == ("way", 1):
            return self.way(place_in(given[0]))
        if word == "show" and len(given) < 2:
            return self.show(place_in(given[0])) if given else self.places()
        raise NoRequest(f"a request is {REQUESTS}")


def is_number(word: str) -> bool:
    return word.isascii() and word.isdigit() and len(word) < 25


def place_in(word: str) -> int:
    if not is_number(word):
        raise NoRequest(f"{word!r} is no place")
    return int(word)


def handed(place: int) -> int:
    """A place as it is handed over: beyond what fits, the greatest number that does."""
    return min(place, library.GREATEST)


def answered(desk: Desk, line: bytes) -> str:
    try:
        return desk.asked(line.decode("utf-8", "replace"))
    except NoRequest as why:
        return f"no request: {why}"


def main(words: list[str]) -> int:
    reader = parser()
    options = reader.parse_args(words)
    meant(reader, options)
    if sys.stdin is None:
        raise Fault("standard input is closed")
    called = names.read(options.names) if options.names is not None else None
    proved = Library()
    number, meaning, file = graph_of(proved, options)
    if number:
        write(f"refused {number}\n".encode())
        say(f"{number}: {meaning.get(number, 'no graph file (docs/FORMATS.md, the numbers)')}")
        return REFUSED
    if called is not None:
        names.enough(called, file[3], options.names, "graph")
    if os.isatty(0):
        say(f"requests, one a line: {REQUESTS}")
    desk = Desk(proved, file, called)
    for line in sys.stdin.buffer:
        write((answered(desk, line) + "\n").encode())
    return 0


COMMAND = Command("desk", main)
