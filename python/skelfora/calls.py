"""Calls read from a file: which kind of file it is, and what every kind gives."""
from __future__ import annotations

import gzip
import sys
import zlib
from collections.abc import Iterable
from typing import NamedTuple

from .faults import Fault, reason


class Call(NamedTuple):
    """The line where the call begins, and its steps by name."""

    line: int
    steps: list[str]


class Found(NamedTuple):
    """Calls in the order in which they begin, and how the file was read, for people."""

    calls: list[Call]
    manner: str


def bytes_of(path: str) -> bytes:
    """A file's bytes; `-` is standard input. What was packed by gzip is unpacked."""
    try:
        if path == "-":
            if sys.stdin is None:
                raise Fault("standard input is closed")
            data = sys.stdin.buffer.read()
        else:
            with open(path, "rb") as file:
                data = file.read()
        return gzip.decompress(data) if data[:2] == b"\x1f\x8b" else data
    except (EOFError, zlib.error, gzip.BadGzipFile) as error:
        raise Fault(f"can't unpack {path}: {error}") from error
    except OSError as error:
        raise Fault(f"can't read {path}: {reason(error)}") from error


def is_xml(data: bytes) -> bool:
    return data.removeprefix(b"\xef\xbb\xbf").lstrip()[:1] == b"<"


def once(calls: Iterable[Call]) -> list[Call]:
    """Each different call once, where it stands first."""
    first: dict[tuple[str, ...], Call] = {}
    for call in calls:
        first.setdefault(tuple(call.steps), call)
    return list(first.values())
