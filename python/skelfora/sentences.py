"""A listing in words: a sentence for each pair, grouped by step, and one for each call."""
from __future__ import annotations

from collections.abc import Iterator, Sequence
from typing import NamedTuple

from .library import NOT_INCLUDED, WAITING


class Pair(NamedTuple):
    letter: str
    source: int
    target: int


class Replay(NamedTuple):
    call: int
    steps: int
    number: int
    accepting: int


RELATIONS = {"C": "condition", "R": "response", "I": "include", "E": "exclude"}


def parsed(listing: str) -> tuple[dict[str, int], list[Pair], list[Replay]]:
    """The first line's counts by their words, the pairs, the replays."""
    first, *rest = [line.split() for line in listing.splitlines()]
    counts = {word: int(number) for word, number in zip(first[::2], first[1::2])}
    pairs = [Pair(line[0], int(line[1]), int(line[2])) for line in rest if line[0] != "T"]
    replays = [Replay(*map(int, line[1:])) for line in rest if line[0] == "T"]
    return counts, pairs, replays


def sentence(pair: Pair, names: Sequence[str]) -> str:
    """What a pair says. A condition has its target for a subject, the others their source."""
    source, target = names[pair.source], names[pair.target]
    other = "itself" if source == target else target
    return {
        "C": f"{target} waits for {source} (while {source} is in)",
        "R": f"after {source}, {target} is owed",
        "I": f"{source} lets {other} in",
        "E": f"{source} shuts {other} out",
    }[pair.letter]


def subject(pair: Pair) -> int:
    return pair.target if pair.letter == "C" else pair.source


def count(number: int, word: str) -> str:
    return f"{number:,} {word}" if number == 1 else f"{number:,} {word}s"


def heading(counts: dict[str, int]) -> str:
    """A year's listing counts no calls."""
    things = [count(counts[what], word) for what, word in (("events", "step"), ("traces", "call")) if what in counts]
    relations = [count(counts[letter], word) for letter, word in RELATIONS.items()]
    return f"{', '.join(things)}; {', '.join(relations)}"


def groups(pairs: Sequence[Pair], names: Sequence[str]) -> Iterator[str]:
    """For each step that some pair speaks of: its name, then its sentences, in the listing's order."""
    for step in sorted({subject(pair) for pair in pairs}):
        yield ""
        yield names[step]
        for pair in pairs:
            if subject(pair) == step:
                yield "  " + sentence(pair, names)


def of_call(replay: Replay) -> str:
    """A call replayed. The proved graph refuses no call of its own log, so a listing says "done, may end" of each."""
    ended = "done" if replay.number == 0 else f"refused with {replay.number}"
    return f"call {replay.call}: {count(replay.steps, 'step')}, {ended}, {'may end' if replay.accepting else 'may not end'}"


def refused_step(number: int, itself: bool, blocker: str | None, near: str | None) -> str:
    """Why a step of a call is refused: by 10 what it waits for, by 9 what shut it out, by 8 that there is none, and which is like it."""
    if number == WAITING:
        return f"waits for {blocker}"
    if number == NOT_INCLUDED:
        if blocker is None:
            return "not included from the opening on"
        return "shut itself out" if itself else f"shut out by {blocker}"
    return "no such step" + (f" (did you mean {near}?)" if near else "")


def told(listing: str, names: Sequence[str]) -> str:
    """The whole listing in words."""
    counts, pairs, replays = parsed(listing)
    lines = [heading(counts), *groups(pairs, names)]
    if replays:
        lines += ["", *map(of_call, replays)]
    return "".join(line + "\n" for line in lines)
