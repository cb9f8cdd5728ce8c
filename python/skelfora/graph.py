"""A graph, for programs: read, kept, replayed on, and calls played on it step by step, by name."""
from __future__ import annotations

import os
from collections.abc import Sequence
from typing import TYPE_CHECKING, NamedTuple

from . import graphfile, library, logfile, names, outfiles
from .faults import Fault, Refused
from .library import DONE
from .naming import Naming
from .play import Play
from .refusals import refusal

if TYPE_CHECKING:
    from .log import Log


class Replay(NamedTuple):
    """How a call of a log went on a graph: in order where it is done and may end."""

    call: int  # which call of the log, from 0
    number: int  # 0 where every step was done, else why the step at the place was refused
    place: int  # how many steps were done
    step: str | None  # the step that was refused
    blocker: str | None  # what it waits for, or what shut it out
    may_end: bool
    sentence: str

    @property
    def in_order(self) -> bool:
        return self.number == DONE and self.may_end


class Graph:
    """Rules over steps by name. `data` is the graph's file (docs/FORMATS.md); `names` are its steps' names, None where there are none."""

    def __init__(self, data: bytes, given: Sequence[str] | None = None) -> None:
        number = library.loaded().judge(data)
        if number:
            raise Refused(number, graphfile.MEANING[number])
        self.data = data
        self.naming = Naming(given)

    @classmethod
    def read(cls, path: str | os.PathLike[str], names: str | os.PathLike[str] | None = None) -> Graph:
        """A graph's file, with the names that stand beside it or in another file."""
        file = os.fspath(path)
        graph = cls(graphfile.read(file))
        graph.naming = Naming.of(None if names is None else os.fspath(names), file, graph.data[3], "graph")
        return graph

    @property
    def names(self) -> tuple[str, ...] | None:
        return None if self.naming.given is None else tuple(self.naming.given[: self.data[3]])

    @property
    def steps(self) -> list[str]:
        """The steps that some rule may speak of, by name."""
        return [self.naming.shown(step) for step in graphfile.events(self.data)]

    def write(self, path: str | os.PathLike[str]) -> None:
        """The graph's file, and its names beside it."""
        file = os.fspath(path)
        outfiles.write_all([*names.growing(file, self.names), (file, self.data)])

    def call(self) -> Call:
        """A call at the opening."""
        return Call(self)

    def replay(self, log: Log) -> list[Replay]:
        """Each call of a log on this graph. Names decide which step is which, and one that the graph lacks is refused with 8; where either
        has no names, numbers do."""
        known = {step: step for step in range(256)}
        if self.names is not None and log.names is not None:
            numbers = {name: step for step, name in enumerate(self.names)}
            known = {step: numbers.get(name, library.NO_STEP) for step, name in enumerate(log.names)}
        return [self.replayed(k, trace, bytes(known[step] for step in trace), log) for k, trace in enumerate(logfile.traces(log.data))]

    def replayed(self, call: int, own: bytes, trace: bytes, log: Log) -> Replay:
        """A call of a log, whose own numbers it has beside the graph's."""
        number, place, blocker, accepting = library.loaded().replay(self.data, trace)
        if number == DONE:
            ended = "in order" if accepting else f"not finished: owes {self.naming.listed(self.after(trace).owed())}"
            return Replay(call, number, place, None, None, accepting, ended)
        step = log.naming.shown(own[place])
        why = refusal(self.after(trace[:place]), self.naming, step, trace[place], number, blocker)
        return Replay(call, number, place, step, why.blocker, False, why.sentence)

    def after(self, trace: bytes) -> Play:
        play = Play(library.loaded(), self.data)
        for step in trace:
            play.step(step)
        return play


class Call:
    """A call on a graph, not yet finished. A refused step changes nothing."""

    def __init__(self, graph: Graph) -> None:
        self.graph = graph
        self.play = Play(library.loaded(), graph.data)

    def named(self, steps: Sequence[int]) -> list[str]:
        return [self.graph.naming.shown(step) for step in steps]

    def step(self, name: str) -> None:
        """Does a step; `Refused` with 8, 9 or 10 where it can't be done now."""
        found = self.graph.naming.number(name)
        step = library.NO_STEP if found is None else found
        stepped = self.play.step(step)
        if stepped.number != DONE:
            raise refusal(self.play, self.graph.naming, name, step, stepped.number, stepped.blocker)

    def undo(self) -> str:
        """Takes the last step back, and gives its name."""
        last = self.play.undo()
        if last is None:
            raise Fault("no step was done, so none can be taken back")
        return self.graph.naming.shown(last)

    @property
    def done(self) -> list[str]:
        return self.named(self.play.done)

    @property
    def open(self) -> list[str]:
        """The steps that could be done next."""
        return self.named(self.play.open())

    @property
    def owed(self) -> list[str]:
        """What keeps the call from ending: pending and included."""
        return self.named(self.play.owed())

    @property
    def may_end(self) -> bool:
        return self.play.may_end()

    def way_out(self) -> list[str] | None:
        """The shortest way to the end, no step where the call may end now; None where four steps are not enough."""
        way = self.play.way_out()
        return None if way is None else self.named(way)
