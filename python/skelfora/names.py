"""Names of steps: the file that has the name of activity k in line k (counted from 0), and what a name may be."""
from __future__ import annotations

import os
import unicodedata
from collections.abc import Iterable, Sequence

from .calls import Call
from .faults import Fault, reason


ENDINGS = (".log", ".graph")


def beside(path: str) -> str:
    """Where the names of a log or a graph stand: X.names beside X.log and X.graph."""
    for ending in ENDINGS:
        if path.endswith(ending):
            return path[: -len(ending)] + ".names"
    return path + ".names"


def own(path: str) -> str | None:
    """The names beside a file, if they are there."""
    return beside(path) if path != "-" and os.path.exists(beside(path)) else None


def growing(path: str, given: Sequence[str] | None) -> list[tuple[str, bytes]]:
    """What is to be written beside a file so that its names stand there: nothing where they do. Names that are there only grow, since other
    files may go by them."""
    there = own(path)
    before = [] if there is None else read(there)
    if given is None or there is not None and before[: len(given)] == list(given):
        return []
    if before != list(given[: len(before)]):
        raise Fault(f"{beside(path)} has other names: they are not written over")
    return [(beside(path), encoded(given))]


def clean(name: str) -> str:
    """A name without the spaces around it, and with each accented letter in one form, however it was typed."""
    return unicodedata.normalize("NFC", name).strip()


def checked(name: str, line: int) -> str:
    """The name, if it can stand in a line of a file."""
    if any(unicodedata.category(letter) == "Cc" for letter in name):
        raise Fault(f"line {line}: a line break or another control character in {name!r}")
    return name


def decoded(data: bytes) -> str:
    """Text in UTF-8, without the mark that some programs put before it."""
    try:
        return data.decode("utf-8-sig")
    except UnicodeDecodeError as error:
        line = data.count(b"\n", 0, error.start) + 1
        raise Fault(f"line {line}: not UTF-8") from error


def read(path: str) -> list[str]:
    """The names in a file. Each line has one, and no two are the same."""
    try:
        with open(path, "rb") as file:
            data = file.read()
    except OSError as error:
        raise Fault(f"can't read {path}: {reason(error)}") from error
    try:
        return listed(decoded(data))
    except Fault as fault:
        raise Fault(f"{path}, {fault}") from fault


def listed(text: str) -> list[str]:
    lines = text.split("\n")
    if lines[-1].strip() == "":
        lines.pop()
    names: list[str] = []
    for line, name in enumerate(map(clean, lines), 1):
        if not name:
            raise Fault(f"line {line}: no name")
        if name in names:
            raise Fault(f"line {line}: {name!r} once more")
        names.append(checked(name, line))
    return names


def encoded(names: Iterable[str]) -> bytes:
    return "".join(name + "\n" for name in names).encode()


def extended(names: Iterable[str], calls: Iterable[Call]) -> list[str]:
    """The names, then those that they lack, in the order in which the calls have them."""
    known = dict.fromkeys(names)
    for call in calls:
        known.update(dict.fromkeys(call.steps))
    return list(known)


def enough(names: list[str], activities: int, path: str, what: str = "log") -> list[str]:
    """The names, if each activity has one."""
    if len(names) < activities:
        raise Fault(f"{path} has {len(names)} names, and the {what} has {activities} activities")
    return names
