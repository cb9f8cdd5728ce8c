"""skelfora call: plays a half-done call on a graph, a line a step, and shows a way out. Every answer is the proved library's; this puts
words to it."""
from __future__ import annotations

import sys
from collections.abc import Sequence
from typing import NamedTuple

from .. import graphfile, logfile
from ..command import Command, Parser, say, write
from ..faults import MISUSED, REFUSED, Fault
from ..library import DONE, NO_STEP, PROFILES, Library
from ..naming import Naming
from ..play import Play
from ..refusals import refusal

ABOUT = """\
Plays a call that is not yet finished, a line a step, and shows how it can still be finished.

  skelfora call calls.log Request Waive           on the graph that is mined from a log; its names stand in calls.names
  skelfora call light calls.log Request           on its light graph
  skelfora call graph-file 0 2                    on a graph file; by step numbers, where there are no names

Each line says what is owed, which steps are open (could be done next) and whether the call may end. A step that is refused changes
nothing, and the call goes on with the next. "May end" means that nothing is owed, not that some recorded call ended so."""

STATUS = """\
exit status: 0 every step was done, 1 a step, the log or the graph is refused, 2 used wrongly, 3 something could not be read, built or
written"""


class Asked(NamedTuple):
    """A step as it was asked for, and its number; one that there is not has the number of no activity."""

    word: str
    number: int


def parser() -> Parser:
    words = Parser("call", usage="[full|light] [--names FILE] LOG STEP...", description=ABOUT, epilog=STATUS)
    words.add_argument("--names", metavar="FILE", help="line k of FILE, counted from 0, is the name of step k; else LOG's own .names")
    words.add_argument(
        "given",
        metavar="[full|light] LOG STEP...",
        nargs="*",
        help="the profile, full where none is named; a log or a graph file, - is standard input; the steps, by name",
    )
    return words


def meant(words: Parser, given: list[str]) -> tuple[str | None, str, list[str]]:
    """The profile's word or none, the file, and the steps. A file that is called full or light is ./full or ./light."""
    profile = given[0] if given and given[0] in PROFILES else None
    rest = given[1:] if profile else given
    if not rest:
        words.error("no log and no graph file is named")
    if len(rest) - 1 > logfile.LONGEST_CALL:
        words.error(f"{len(rest) - 1:,} steps, {logfile.LONGEST_CALL:,} are the most")
    return profile, rest[0], rest[1:]


def asked_for(words: Parser, given: Naming, text: str) -> Asked:
    """The step that is meant, by its name in the graph's own capitals, or by its number where there are no names."""
    number = given.number(text)
    if number is None and given.given is None:
        words.error(f"'{text}' is no step's number, and there are no names (--names FILE)")
    return Asked(text, NO_STEP) if number is None else Asked(text if given.given is None else given.shown(number), number)


def standing(call: Play, given: Naming) -> str:
    """What is owed, what is open, whether the call may end."""
    ends = "yes" if call.may_end() else "no"
    return f"owed: {given.listed(call.owed())}; open: {given.listed(call.open())}; may end: {ends}"


def changes(before: Sequence[int], after: Sequence[int], step: int, given: Naming) -> str:
    """Which other steps were shut out and let in."""
    parts = []
    for words, old, new in (("shuts out", before, after), ("lets in", after, before)):
        moved = [other for other in old if other not in new and other != step]
        if moved:
            parts.append(f"{words} {given.listed(moved)}; ")
    return "".join(parts)


def played(call: Play, asked: Asked, given: Naming) -> tuple[str, bool]:
    """The line of a step, and whether it was done. Steps that were done are counted from 1."""
    before, place = call.included(), len(call.done) + 1
    stepped = call.step(asked.number)
    if stepped.number != DONE:
        why = refusal(call, given, asked.word, asked.number, stepped.number, stepped.blocker)
        return f"{place} {asked.word}: refused {why.number}, {why.sentence}", False
    return f"{place} {asked.word}: done; {changes(before, call.included(), asked.number, given)}{standing(call, given)}", True


def settled(call: Play, step: int, given: Naming) -> str:
    """The line of a step on the way out. It settles what was owed and is not any more: done, or shut out."""
    before, opened = call.owed(), call.open()
    call.step(step)
    after = call.owed()
    gone = [other for other in before if other not in after]
    parts = [f"settles {given.listed(gone)}" if gone else "settles nothing yet"]
    freed = [other for other in call.open() if other not in opened and other in after]
    if freed:
        parts.append(f"opens {given.listed(freed)}")
    parts.append(f"owed: {given.listed(after)}")
    return f"{len(call.done)} {given.shown(step)}: {'; '.join(parts)}; may end: {'yes' if call.may_end() else 'no'}"


def way_out(call: Play, given: Naming) -> list[str]:
    """The lines of the way out. One step that settles itself and nothing else needs no second line."""
    way = call.way_out()
    if way is None:
        return ["way out: none within 4 steps"]
    if not way:
        return ["way out: none needed, the call may end now"]
    lines = [f"way out: {given.listed(way)}"]
    if way != call.owed():
        walker = call.copy()
        lines += [settled(walker, step, given) for step in way]
    return lines


def graph_of(library: Library, profile: str | None, path: str) -> tuple[int, bytes, str | None]:
    """The graph file that is meant, or none and why: what was read is a graph file, or a log to be mined."""
    data = logfile.read(path)
    if data[:2] != graphfile.LETTERS:
        number, graph = library.mine(data, PROFILES.index(profile or PROFILES[0]))
        return number, graph, logfile.MEANING.get(number)
    if profile is not None:
        raise Fault(f"'{profile}' says how a log is mined, and {path} is a graph file", MISUSED)
    number = library.judge(data)
    return number, data, graphfile.MEANING.get(number)


def main(words: list[str]) -> int:
    reader = parser()
    options = reader.parse_intermixed_args(words)
    profile, path, steps = meant(reader, options.given)
    if sys.stdout is None:
        raise Fault("standard output is closed")
    library = Library()
    number, graph, meaning = graph_of(library, profile, path)
    if number != DONE:
        write(f"refused {number}\n".encode())
        say(f"{number}: {meaning}")
        return REFUSED
    given = Naming.of(options.names, path, graph[3])
    asked = [asked_for(reader, given, text) for text in steps]
    call = Play(library, graph)
    lines = [played(call, one, given) for one in asked] or [(f"0 opening: {standing(call, given)}", True)]
    text = [line for line, _done in lines] + way_out(call, given)
    write("".join(line + "\n" for line in text).encode())
    return 0 if all(done for _line, done in lines) else REFUSED


COMMAND = Command("call", main)
