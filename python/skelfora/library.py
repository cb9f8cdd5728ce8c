"""The proved library, through ctypes: its functions by name, on bytes and numbers. docs/PORT-OTHER.md has what each one gives. It is built
first, if anything changed."""
from __future__ import annotations

import ctypes
import functools
from typing import Any, NamedTuple

from . import build
from .faults import Fault

# Enough for a graph file of either edition.
GRAPH_ROOM = 8788
MARKS_ROOM = 98

# A set has 8 bytes for up to 64 activities, and 16 in what belongs to a graph file of edition 2 (02, 10/12).
SET, WIDE_SET, WIDE_EDITION = 8, 16, 2

# A tally, and what is read from it: A, the events, and four relations of 64 rows (docs/FORMATS.md).
TALLY, RELATIONS = 36864, 1 + SET + 4 * 64 * SET

PLACES = 32
NO_PLACE = 255

# The bytes of a way out, and what stands in one that is not used.
WAY, NO_STEP = 4, 255

# The profiles, by their numbers.
PROFILES = ("full", "light")
FULL = PROFILES.index("full")

# The numbers that decide what is said; docs/FORMATS.md has them all.
DONE, TOO_SMALL, NO_EVENT, NOT_INCLUDED, WAITING, NOT_OPEN, NO_WAY_OUT = 0, 7, 8, 9, 10, 14, 17

# The greatest number that a function can be handed; all above 31 are alike to the desk.
GREATEST: int = 2 ** (8 * ctypes.sizeof(ctypes.c_size_t)) - 1

BYTES: list[Any] = [ctypes.c_char_p, ctypes.c_size_t]

# What each function takes.
TAKEN: dict[str, list[Any]] = {
    "skelfora_mine": [*BYTES, ctypes.c_uint8, *BYTES],
    "skelfora_rewrite": [*BYTES, *BYTES],
    "skelfora_replay": [*BYTES, *BYTES],
    "skelfora_opening": [*BYTES, *BYTES],
    "skelfora_step": [*BYTES, *BYTES, ctypes.c_uint8],
    "skelfora_finish": [*BYTES, *BYTES, *BYTES],
    "skelfora_shut_by": [*BYTES, *BYTES, ctypes.c_uint8],
    "skelfora_marks_text": [*BYTES, *BYTES, *BYTES, *BYTES],
    "skelfora_guesses_text": [*BYTES, *BYTES, *BYTES],
    "skelfora_desk_open": [*BYTES, *BYTES],
    "skelfora_desk_step": [*BYTES, *BYTES, ctypes.c_size_t, ctypes.c_uint8],
    "skelfora_desk_close": [*BYTES, *BYTES, ctypes.c_size_t],
    "skelfora_desk_finish": [*BYTES, *BYTES, ctypes.c_size_t, *BYTES],
    "skelfora_tally": [*BYTES, *BYTES],
    "skelfora_tally_join": [*BYTES, *BYTES],
    "skelfora_tally_relations": [*BYTES, ctypes.c_uint8, *BYTES],
}

# Lent memory.
Lent = ctypes.Array[ctypes.c_char]

# What is handed over: a number, bytes, or lent memory.
Given = int | bytes | Lent


class Sets(NamedTuple):
    """A marking's sets, in the order of its bytes; enabled is what can be done next."""

    executed: list[int]
    pending: list[int]
    included: list[int]
    enabled: list[int]


class Stepped(NamedTuple):
    number: int
    blocker: int
    marking: bytes


class Replayed(NamedTuple):
    number: int
    place: int
    blocker: int
    accepting: bool


class Library:
    """The functions by their names, bytes and buffers each with their length; and by short names those that are asked for in more than one
    place. A number that refuses comes back as it is; nothing here judges."""

    def __init__(self) -> None:
        path = build.library_path()
        try:
            library = ctypes.CDLL(path)
            self.functions = {name: getattr(library, name) for name in TAKEN}
        except (OSError, AttributeError) as error:
            raise Fault(f"can't load {path}: {error}") from error
        for name, function in self.functions.items():
            function.restype = ctypes.c_uint64
            function.argtypes = TAKEN[name]

    def call(self, name: str, *given: Given) -> int:
        words: list[Given] = []
        for one in given:
            words += [one] if isinstance(one, int) else [one, len(one)]
        answer: int = self.functions[name](*words)
        return answer

    def mine(self, log: bytes, profile: int) -> tuple[int, bytes]:
        """The number, and the graph file."""
        lent = buffer(GRAPH_ROOM)
        given = self.call("skelfora_mine", log, profile, lent)
        return number(given), lent.raw[: place(given)]

    def judge_log(self, log: bytes) -> int:
        """The number of a log. A tally is refused for its room, and nothing else, once the log is accepted."""
        given = number(self.call("skelfora_tally", log, buffer(0)))
        return DONE if given == TOO_SMALL else given

    def judge(self, file: bytes) -> int:
        """The number of a graph file."""
        return number(self.call("skelfora_rewrite", file, buffer(GRAPH_ROOM)))

    def replay(self, file: bytes, trace: bytes) -> Replayed:
        given = self.call("skelfora_replay", file, trace)
        return Replayed(number(given), place(given), blocker(given), accepting(given))

    def marks_text(self, file: bytes, log: bytes, labels: bytes) -> tuple[int, bytes]:
        """The number, and the text of a graph's marks."""
        lent = buffer(MARKS_ROOM)
        given = self.call("skelfora_marks_text", file, log, labels, lent)
        return number(given), lent.raw[: place(given)]

    def guesses_text(self, guesses: bytes, labels: bytes) -> tuple[int, bytes]:
        """The same of guesses, in place of a graph's verdicts."""
        lent = buffer(MARKS_ROOM)
        given = self.call("skelfora_guesses_text", guesses, labels, lent)
        return number(given), lent.raw[: place(given)]

    def opening(self, file: bytes) -> bytes:
        """The opening marking of a graph file that was judged."""
        lent = buffer(marking_size(file))
        self.call("skelfora_opening", file, lent)
        return lent.raw

    def step(self, file: bytes, marking: bytes, activity: int) -> Stepped:
        """The marking after it is the one before it where the step is refused."""
        lent = holding(marking)
        given = self.call("skelfora_step", file, lent, activity)
        return Stepped(number(given), blocker(given), lent.raw)

    def finish(self, file: bytes, marking: bytes) -> tuple[int, list[int]]:
        """The number, and the steps of the way."""
        lent = way()
        given = self.call("skelfora_finish", file, marking, lent)
        return number(given), steps(lent)

    def shut_by(self, file: bytes, trace: bytes, activity: int) -> int | None:
        """What shut an activity out in this trace, or None."""
        by = place(self.call("skelfora_shut_by", file, trace, activity)) & 0xFF
        return None if by == NO_STEP else by


@functools.cache
def loaded() -> Library:
    """The library, loaded once by those who use the package without the commands."""
    return Library()


def number(given: int) -> int:
    return given & 0xFF


def place(given: int) -> int:
    """The place, or the length, beside the number."""
    return given >> 8 & 0xFFFFFF


def blocker(given: int) -> int:
    return given >> 40 & 0xFF


def accepting(given: int) -> bool:
    return given >> 32 & 1 == 1


def set_size(file: bytes) -> int:
    """The bytes of a set, in a graph file and in what is lent beside it: by the file's edition."""
    return WIDE_SET if file[2:3] == bytes([WIDE_EDITION]) else SET


def marking_size(file: bytes) -> int:
    return set_size(file) * len(Sets._fields)


def place_size(file: bytes) -> int:
    """A desk's place: a byte, 0 where it is free, then its marking."""
    return 1 + marking_size(file)


def members(data: bytes) -> list[int]:
    """A set as step numbers, rising."""
    bits = int.from_bytes(data, "little")
    return [step for step in range(8 * len(data)) if bits >> step & 1]


def sets(marking: bytes) -> Sets:
    """The four sets of a marking, each as step numbers."""
    size = len(marking) // len(Sets._fields)
    return Sets(*(members(marking[at : at + size]) for at in range(0, len(marking), size)))


def way() -> Lent:
    """Lent memory for a way out, no step in it."""
    return holding(bytes([NO_STEP] * WAY))


def steps(lent: Lent) -> list[int]:
    """The steps of a way out."""
    return [step for step in lent.raw if step != NO_STEP]


def buffer(room: int) -> Lent:
    """Lent memory, all zeros."""
    return ctypes.create_string_buffer(room)


def holding(given: bytes) -> Lent:
    """Lent memory that holds these bytes."""
    return ctypes.create_string_buffer(given, len(given))
