"""The log file, as docs/FORMATS.md has it: its limits, what its refusals mean, and how one is read in and written down."""
from __future__ import annotations

import itertools
import os
import sys
from collections.abc import Sequence

from .calls import Call
from .faults import Fault, reason

LETTERS = b"BL"

# The editions, and the most activities of each (02, 10/12): 1 up to 64, 2 from 65 on.
EDITIONS = {1: 64, 2: 128}

MOST_NAMES = max(EDITIONS.values())
MOST_CALLS = 1024
LONGEST_CALL = 512
MOST_STEPS = 32768

# The longest log has 36,870 bytes. One more is enough to judge a longer one (crates/calllog/proofs/Long.antt).
ENOUGH = 36871

# What the numbers that refuse a log mean.
MEANING = {
    1: "shorter than it must be: cut off, or no log at all",
    2: "no log: it does not begin with the bytes 66 76 and the edition, 1 or 2",
    3: "more than 128 activities, 1,024 calls, 512 steps in a call or 32,768 in all, or not the edition for its activities: 1 up to 64, 2 above",
    4: "an offset is not the sum of the earlier lengths, or bytes follow the end",
    5: "a step's number is not below the number of activities",
}


def read(path: str) -> bytes:
    """The bytes of a log, as many as matter; `-` is standard input."""
    try:
        if path == "-":
            return read_standard_input()
        with open(path, "rb") as file:
            return file.read(ENOUGH)
    except OSError as error:
        raise Fault(f"can't read {path}: {reason(error)}") from error


def opening(edition: int) -> bytes:
    """The bytes that a log of this edition begins with."""
    return LETTERS + bytes([edition])


def edition_for(activities: int) -> int:
    """The edition of a log with so many activities."""
    return min(edition for edition, most in EDITIONS.items() if activities <= most)


def replaceable(path: str) -> bool:
    """Whether nothing but a log, or an empty file, would be written over."""
    try:
        with open(path, "rb") as file:
            return file.read(len(LETTERS) + 1) in (b"", *map(opening, EDITIONS))
    except OSError:
        return not os.path.exists(path)


def read_standard_input() -> bytes:
    if sys.stdin is None:
        raise Fault("standard input is closed")
    return sys.stdin.buffer.read(ENOUGH)


def traces(data: bytes) -> list[bytes]:
    """The calls of an accepted log, a byte a step."""
    count = int.from_bytes(data[4:6], "little")
    lengths = [int.from_bytes(data[8 + 4 * k : 10 + 4 * k], "little") for k in range(count)]
    starts = itertools.accumulate(lengths, initial=6 + 4 * count)
    return [data[start : start + length] for start, length in zip(starts, lengths)]


def refusal(output: bytes) -> int:
    """The number in what a program wrote of a refused log; 0 of any other."""
    parts = output.split()
    return int(parts[1]) if parts[:1] == [b"refused"] else 0


def check(calls: Sequence[Call], names: Sequence[str]) -> None:
    """The limits. A fault says how many there are, and how many may be."""
    total = sum(len(call.steps) for call in calls)
    if len(names) > MOST_NAMES:
        raise Fault(f"{len(names):,} names, {MOST_NAMES:,} are the most")
    if len(calls) > MOST_CALLS:
        raise Fault(f"{len(calls):,} calls, {MOST_CALLS:,} are the most (--once writes each different call once)")
    for call in calls:
        if len(call.steps) > LONGEST_CALL:
            raise Fault(f"line {call.line}: the call that begins here has {len(call.steps):,} steps, {LONGEST_CALL:,} are the most")
    if total > MOST_STEPS:
        raise Fault(f"{total:,} steps, {MOST_STEPS:,} are the most (--once writes each different call once)")


def encoded(calls: Sequence[Call], names: Sequence[str]) -> bytes:
    """The bytes of the log: a step is its name's place among the names."""
    number = {name: k for k, name in enumerate(names)}
    entries, bodies = bytearray(), bytearray()
    for call in calls:
        entries += len(bodies).to_bytes(2, "little") + len(call.steps).to_bytes(2, "little")
        bodies += bytes(number[step] for step in call.steps)
    return opening(edition_for(len(names))) + bytes([len(names)]) + len(calls).to_bytes(2, "little") + bytes(entries) + bytes(bodies)
