"""skelfora list: which log is meant, its listing, and what beside the listing has to be said."""
from __future__ import annotations

import argparse
import fcntl
import os
import sys

from .. import build, logfile, names, sentences
from ..command import Command, Parser, say, write
from ..faults import REFUSED, Fault
from ..library import PROFILES

SAMPLE = os.path.join(build.ROOT, "data", "L.log")

ABOUT = """\
Mines a log and lists its graph: the proved program `listing` reads the log, and what it writes is printed as it is.

  skelfora list calls.log                       the listing of a file, of its light graph
  skelfora list full calls.log                  of its full graph: with the many exclusions and inclusions of step 6
  skelfora list - <calls.log                    of standard input
  skelfora list --names calls.names calls.log   in sentences, with the steps' names (skelfora log writes both files)

Without LOG it lists standard input, or, where nothing can be read there (a terminal, or closed), the sample data/L.log."""

STATUS = "exit status: 0 listed, 1 the log is refused, 2 used wrongly, 3 something could not be read, built or written"


def parser() -> Parser:
    words = Parser("list", usage="[full|light] [--names FILE] [LOG]", description=ABOUT, epilog=STATUS)
    words.add_argument("--names", metavar="FILE", help="print sentences; line k of FILE, counted from 0, is the name of activity k")
    words.add_argument(
        "given", metavar="[full|light] [LOG]", nargs="*", help="the profile, light where none is named; a log (docs/FORMATS.md), - is standard input"
    )
    return words


def meant(words: Parser, options: argparse.Namespace) -> tuple[list[str], str | None]:
    """The profile by its word, as the program takes it, and the log, or none. Where no profile is named the program takes light (02, 11/12):
    that is its rule, and none is added here. A log that is called full or light is ./full or ./light."""
    given = options.given
    profile = given[:1] if given and given[0] in PROFILES else []
    rest = given[len(profile) :]
    if len(rest) > 1 and not profile:
        words.error(f"'{rest[0]}' is neither full nor light")
    if len(rest) > 1:
        words.error(f"'{rest[1]}' is one log too many")
    return profile, rest[0] if rest else None


def nothing_to_read() -> bool:
    """Whether standard input is closed, a terminal, or open for writing alone, as nohup leaves it."""
    if sys.stdin is None or os.isatty(0):
        return True
    return fcntl.fcntl(0, fcntl.F_GETFL) & os.O_ACCMODE == os.O_WRONLY


def chosen(log: str | None) -> str:
    """The log that is meant, where none is named."""
    if log is not None:
        return log
    if not nothing_to_read():
        return "-"
    say("nothing can be read from standard input: this is the sample log, data/L.log")
    return SAMPLE


def in_words(listing: bytes, given: list[str], path: str, data: bytes) -> bytes:
    """The listing in sentences. Byte 3 of a log that was accepted is its number of activities."""
    return sentences.told(listing.decode(), names.enough(given, data[3], path)).encode()


def main(words: list[str]) -> int:
    reader = parser()
    # the option may stand between the profile and the log
    options = reader.parse_intermixed_args(words)
    profile, log = meant(reader, options)
    if sys.stdout is None:
        raise Fault("standard output is closed")
    given = names.read(options.names) if options.names is not None else None
    data = logfile.read(chosen(log))
    listing = build.run("listing", data, profile)
    number = logfile.refusal(listing)
    if number:
        write(listing)
        say(f"{number}: {logfile.MEANING[number]}")
        return REFUSED
    write(listing if given is None else in_words(listing, given, options.names, data))
    return 0


COMMAND = Command("list", main)
