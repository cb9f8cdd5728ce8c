"""skelfora year: months put together. The proved library fills a tally from each log, joins them, and reads the relations after step 8."""
from __future__ import annotations

import argparse
import os

from .. import library, logfile, names, outfiles, sentences
from ..command import Command, Parser, say, write
from ..faults import MISUSED, REFUSED, Fault
from ..library import PROFILES, Library

ABOUT = """\
Months put together: the rules of all calls of some logs, without one log that holds them all. Each MONTH is a log (docs/FORMATS.md), or a tally
that --save has written; in all of them a step must have the same number. Prints events and pairs as skelfora list does, and no line for a call.

  skelfora year may.log june.log                        of the light graph
  skelfora year full may.log june.log                   of the full graph
  skelfora year --save year.tally may.log june.log      keeps what the months come to
  skelfora year --save year.tally year.tally july.log   and has one month more in it
  skelfora year --names june.names may.log june.log     in sentences, with the steps' names

Only steps 1 to 8 of mining are in it: 9 and 10, which add conditions, need the calls themselves. Standard error says so in its first line."""

STATUS = "exit status: 0 listed, 1 a month is refused, 2 used wrongly, 3 something could not be read, built or written"

WITHOUT = "steps 9 and 10 are not in it: they need the calls, and a tally has none"

# A tally's first byte is its number of activities, a log's is 66: so no file is taken for both.
MOST_ACTIVITIES = 64

TOO_MANY = f"more than {MOST_ACTIVITIES} activities: a tally has room for {MOST_ACTIVITIES}, so such months can't be put together"


def parser() -> Parser:
    words = Parser("year", usage="[full|light] [--names FILE] [--save FILE] MONTH...", description=ABOUT, epilog=STATUS)
    words.add_argument("--names", metavar="FILE", help="print sentences; line k of FILE, counted from 0, is the name of activity k")
    words.add_argument("--save", metavar="FILE", help="write the joined tally, 36,864 bytes; nothing but a tally is written over")
    words.add_argument(
        "given", metavar="[full|light] MONTH", nargs="*", help="the profile, light where none is named; then logs and tallies, - is standard input"
    )
    return words


def meant(words: Parser, options: argparse.Namespace) -> tuple[int, list[str]]:
    """The profile's number and the months. A month that is called full or light is ./full or ./light."""
    given = options.given
    named = given[:1] if given and given[0] in PROFILES else []
    months = given[len(named) :]
    if not months:
        words.error("a month is wanted, or more")
    if months.count("-") > 1:
        words.error("standard input is one month")
    return PROFILES.index(named[0] if named else "light"), months


def is_tally(data: bytes) -> bool:
    return len(data) == library.TALLY and data[0] <= MOST_ACTIVITIES


def replaceable(path: str) -> bool:
    """Whether nothing but a tally, or an empty file, would be written over."""
    try:
        with open(path, "rb") as file:
            data = file.read(library.TALLY + 1)
    except OSError:
        return not os.path.lexists(path)
    return data == b"" or is_tally(data)


def why(number: int, data: bytes) -> str:
    """Why a month is refused. An accepted log may have too many activities for a tally; what does not begin as a log does may have been
    meant for one."""
    if number == 3 and data.startswith(logfile.opening(2)) and data[3:4] > bytes([MOST_ACTIVITIES]):
        return f"{number}: {TOO_MANY}"
    beside = "" if data.startswith(logfile.LETTERS) else f"; nor is it a tally: that has {library.TALLY:,} bytes, the first at most {MOST_ACTIVITIES}"
    return f"{number}: {logfile.MEANING[number]}{beside}"


def tally_of(proved: Library, data: bytes) -> tuple[int, bytes]:
    """The number with which a month is refused, and its tally."""
    if is_tally(data):
        return 0, data
    lent = library.buffer(library.TALLY)
    return library.number(proved.call("skelfora_tally", data, lent)), lent.raw


def listed(known: bytes) -> str:
    """The lines of what a tally gives: A, the events, then the rows of each relation, a condition in the row of its target."""
    rows = [library.members(known[at : at + library.SET]) for at in range(1, len(known), library.SET)]
    pairs = []
    for place, letter in enumerate(sentences.RELATIONS):
        found = [(key, member) for key in range(64) for member in rows[1 + 64 * place + key]]
        pairs.append((letter, sorted((member, key) for key, member in found) if letter == "C" else found))
    first = " ".join([f"events {len(rows[0])}", *(f"{letter} {len(found)}" for letter, found in pairs)])
    return "\n".join([first, *(f"{letter} {source} {target}" for letter, found in pairs for source, target in found), ""])


def main(words: list[str]) -> int:
    reader = parser()
    # the options may stand between the profile and the months
    options = reader.parse_intermixed_args(words)
    profile, paths = meant(reader, options)
    if options.save is not None and not replaceable(options.save):
        raise Fault(f"{options.save} is there and is no tally: it is not written over", MISUSED)
    called = names.read(options.names) if options.names is not None else None
    months = [(path, logfile.read(path)) for path in paths]
    say(WITHOUT)
    proved = Library()
    # all zeros is the tally of no activity and no call, which changes nothing
    year = library.buffer(library.TALLY)
    for path, data in months:
        number, tally = tally_of(proved, data)
        if number:
            write(f"refused {number}\n".encode())
            say(f"{path}: {why(number, data)}")
            return REFUSED
        proved.call("skelfora_tally_join", year, tally)
    known = library.buffer(library.RELATIONS)
    proved.call("skelfora_tally_relations", year, profile, known)
    text = listed(known.raw)
    if called is not None:
        text = sentences.told(text, names.enough(called, known.raw[0], options.names, "year"))
    if options.save is not None:
        outfiles.write_all([(options.save, year.raw)])
    write(text.encode())
    return 0


COMMAND = Command("year", main)
