"""skelfora log: reads calls in one of the forms of docs/FORMATS.md, numbers their steps, and writes a log and its names; or shows a log."""
from __future__ import annotations

import argparse
import os

from .. import build, calls, logfile, names, outfiles, reading, table
from ..command import Command, Parser, say, write
from ..faults import MISUSED, REFUSED, Fault
from ..sentences import count

ABOUT = """\
Makes a log from recorded calls, and the file that has the name of each step.

  skelfora log calls.csv calls.log      from CSV or XES (also gzipped) to calls.log and calls.names
  skelfora log --show calls.log         the calls by name, a call a line: the proved program `calls` reads the log

CALLS is a table with a row for each step, or has a line for each call, or is XES; - is standard input. The steps of a call
are in the order of its rows. Names that calls.names has already keep their numbers. docs/FORMATS.md has all of it."""

STATUS = "exit status: 0 done, 1 the log to show is refused, 2 used wrongly, 3 something could not be read, built or written"


def parser() -> Parser:
    words = Parser("log", description=ABOUT, epilog=STATUS)
    words.add_argument("--show", action="store_true", help="print the calls of a log by name")
    words.add_argument("--names", metavar="FILE", help="with --show: the names, if they don't stand beside the log")
    words.add_argument("--once", action="store_true", help="write each different call once")
    words.add_argument("--table", dest="form", action="store_const", const="table", help="CALLS has a row for each step")
    words.add_argument("--lines", dest="form", action="store_const", const="lines", help="CALLS has a line for each call")
    words.add_argument("--call", metavar="COLUMN", help="the table's column for the call, by its heading")
    words.add_argument("--step", metavar="COLUMN", help="the table's column for the step, by its heading")
    words.add_argument("files", metavar="FILE", nargs="*", help="CALLS OUT.log, or with --show LOG")
    return words


def show(log: str, path: str | None) -> int:
    """Prints a log's calls, in the form that is read again as a call a line."""
    path = path or names.beside(log)
    given = names.read(path)
    data = logfile.read(log)
    shown = build.run("calls", data)
    number = logfile.refusal(shown)
    if number:
        write(shown)
        say(f"{number}: {logfile.MEANING[number]}")
        return REFUSED
    names.enough(given, data[3], path)
    lines = [line.split() for line in shown.decode().splitlines()]
    write("".join(line + "\n" for line in ["steps", *(shown_call([given[int(step)] for step in line]) for line in lines)]).encode())
    return 0


def shown_call(steps: list[str]) -> str:
    """A line for a call. One without steps is a pair of quotes, since an empty line is nothing."""
    return ",".join(map(quoted, steps)) or '""'


def quoted(name: str) -> str:
    if any(letter in name for letter in table.SEPARATORS + '"'):
        return '"' + name.replace('"', '""') + '"'
    return name


def make(path: str, out: str, options: argparse.Namespace) -> int:
    """Writes the log and its names, the names first: they only grow, so a log that stays behind keeps its meaning."""
    found = reading.read(path, options.form, options.call, options.step)
    kept = calls.once(found.calls) if options.once else found.calls
    beside = names.beside(out)
    before = names.read(beside) if os.path.exists(beside) else []
    after = names.extended(before, kept)
    logfile.check(kept, after)
    grown = [(beside, names.encoded(after))] if after != before or not os.path.exists(beside) else []
    outfiles.write_all(grown + [(out, logfile.encoded(kept, after))])
    say(f"{path} is read as {found.manner}")
    if options.once:
        say(f"{count(len(found.calls) - len(kept), 'call')} left out, being the same as an earlier one")
    steps = sum(len(call.steps) for call in kept)
    write(f"{count(len(kept), 'call')}, {count(steps, 'step')}, {count(len(after), 'name')}\n".encode())
    return 0


def main(words: list[str]) -> int:
    options = parser().parse_args(words)
    making = options.once or options.form or options.call is not None or options.step is not None
    if options.show and (making or len(options.files) != 1):
        raise Fault("--show takes one log, and --names alone beside it; see skelfora log --help", MISUSED)
    if options.show:
        return show(options.files[0], options.names)
    if len(options.files) != 2 or options.names is not None:
        raise Fault("two files are needed, CALLS and OUT.log; see skelfora log --help", MISUSED)
    path, out = options.files
    if out == "-":
        raise Fault("OUT.log is a file: its names are written beside it", MISUSED)
    if not logfile.replaceable(out):
        raise Fault(f"{out} is there and is no log: it is not written over", MISUSED)
    return make(path, out, options)


COMMAND = Command("log", main)
