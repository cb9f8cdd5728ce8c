"""What the commands have in common: how they begin, say what is wrong, write, and end."""
from __future__ import annotations

import argparse
import contextlib
import os
import re
import signal
import sys
import threading
from collections.abc import Callable, Iterator
from types import FrameType
from typing import Any, NoReturn

from .faults import MISUSED, Fault

Main = Callable[[list[str]], int]


class Voice:
    """Who speaks on standard error: the command that runs, or the package where none does; and whether it was started at the root, as
    ./list, and calls the commands so."""

    name = "skelfora"
    at_root = False


def called(text: str) -> str:
    """A text that names commands, each as it was started: as skelfora list, or as ./list."""
    return re.sub(r"\bskelfora (log|list|call|desk|marks|nightly|year|classroom|library)\b", r"./\1", text) if Voice.at_root else text


class Parser(argparse.ArgumentParser):
    """Says in one line what is wrong with the words given."""

    def __init__(self, name: str, usage: str | None = None, **about: Any) -> None:
        prog = called(f"skelfora {name}")
        formatter = argparse.RawDescriptionHelpFormatter
        about = {key: called(text) for key, text in about.items()}
        super().__init__(prog=prog, usage=usage and f"{prog} {usage}", allow_abbrev=False, formatter_class=formatter, **about)

    def error(self, message: str) -> NoReturn:
        raise Fault(f"{message}; see {self.prog} --help", MISUSED)

    def print_help(self, file: Any = None) -> None:
        write(self.format_help().encode())


class Command:
    """A name, and a function from the words of the command line to an exit status."""

    def __init__(self, name: str, main: Main) -> None:
        self.name = name
        self.main = main

    def run(self, words: list[str]) -> int:
        for number in (signal.SIGTERM, signal.SIGHUP):
            signal.signal(number, end_by_signal)
        Voice.name = self.name
        try:
            return self.main(words)
        except Fault as fault:
            say(str(fault))
            return fault.status
        except KeyboardInterrupt:
            return 128 + signal.SIGINT


def end_by_signal(number: int, _frame: FrameType | None) -> NoReturn:
    """Ends by way of every `finally`, so that nothing is left behind."""
    sys.exit(128 + number)


@contextlib.contextmanager
def unbroken() -> Iterator[None]:
    """Holds back a signal that would end the command, until the lines below are done: what they begin is then known and can be ended.
    Only the main thread gets signals, and only it can hold them back."""
    held: list[tuple[int, FrameType | None]] = []
    numbers = (signal.SIGINT, signal.SIGTERM, signal.SIGHUP) if threading.current_thread() is threading.main_thread() else ()
    before = {number: handler for number in numbers if callable(handler := signal.getsignal(number))}
    for number in before:
        signal.signal(number, lambda number, frame: held.append((number, frame)))
    try:
        yield
    finally:
        for number, handler in before.items():
            signal.signal(number, handler)
    for signalled, frame in held:
        before[signal.Signals(signalled)](signalled, frame)


def say(text: str) -> None:
    """A line on standard error."""
    if sys.stderr is not None:
        print(f"{Voice.name}: {called(text)}", file=sys.stderr, flush=True)


def write(data: bytes) -> None:
    """All of the bytes to standard output, or a fault. A reader that has gone away ends the command as it does any other."""
    if sys.stdout is None:
        raise Fault("standard output is closed")
    signal.signal(signal.SIGPIPE, signal.SIG_DFL)
    try:
        while data:
            data = data[os.write(1, data) :]
    except OSError as error:
        raise Fault(f"standard output can't be written: {error.strerror}") from error
