"""The door: one command, `skelfora`, and behind it those of a day's work."""
from __future__ import annotations

import difflib
import importlib
import sys

from . import __version__
from .command import Command, Voice, write
from .faults import MISUSED, Fault

# The commands in the order of a day's work, and what each does.
DAY = {
    "log": "makes a log, and the names of its steps, from a table of calls or XES; shows a log by name",
    "list": "mines a log and lists its graph, by numbers or in sentences",
    "call": "plays a half-done call on a graph and shows how it can still be finished",
    "desk": "keeps up to 32 calls at once on one graph, asked by lines",
    "marks": "scores a graph, or a student's guesses, on calls that are labelled in order or not",
    "nightly": "lists and marks each log of a folder that has labels beside it",
    "year": "puts months together: the rules of several logs, or of what was saved of them",
    "classroom": "prints the rows of docs/CLASSROOM.md: calls that are refused, and why",
    "library": "makes the proved functions for C, Rust and Python",
}

ABOUT = """\
usage: skelfora COMMAND ...

Mines rules from recorded calls and replays calls on them, by a proved library. The commands, in the order of a day's work:

{commands}

  skelfora COMMAND --help   what a command takes, with examples
  skelfora --version        the version

exit status, of every command: 0 done, 1 a log, graph, step, label or call is refused or out of order, 2 used wrongly, 3 a file could not
be read as what it should be, built or written
"""


def about() -> str:
    width = max(map(len, DAY))
    return ABOUT.format(commands="\n".join(f"  {name.ljust(width)}  {line}" for name, line in DAY.items()))


def unknown(word: str) -> Fault:
    near = difflib.get_close_matches(word, DAY, 1)
    meant = f" (did you mean {near[0]}?)" if near else ""
    return Fault(f"there is no command {word!r}{meant}; see skelfora --help", MISUSED)


def itself(words: list[str]) -> int:
    """What is asked of the door and of no command behind it."""
    if not words:
        raise Fault("a command is wanted; see skelfora --help", MISUSED)
    if words[0] not in ("-h", "--help", "--version"):
        raise unknown(words[0])
    if len(words) > 1:
        raise Fault(f"{words[0]} stands alone; see skelfora --help", MISUSED)
    write((f"skelfora {__version__}\n" if words[0] == "--version" else about()).encode())
    return 0


def main() -> int:
    words = sys.argv[1:]
    if words and words[0] in DAY:
        return behind(words[0]).run(words[1:])
    return Command("skelfora", itself).run(words)


def behind(name: str) -> Command:
    command: Command = importlib.import_module(f"skelfora.commands.{name}").COMMAND
    return command


def at_root(name: str) -> int:
    """A command of the door by its own name, as ./list at the root: it calls the commands so wherever it names them."""
    Voice.at_root = True
    return behind(name).run(sys.argv[1:])
