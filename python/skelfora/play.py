"""A call played on a graph, by step numbers: each step, and what stands then, is the proved library's answer."""
from __future__ import annotations

from . import library
from .library import DONE, Library, Stepped


class Play:
    """The steps that were done, and the marking after each of them."""

    def __init__(self, proved: Library, graph: bytes) -> None:
        self.library, self.graph = proved, graph
        self.done = b""
        self.markings = [proved.opening(graph)]

    @property
    def marking(self) -> bytes:
        return self.markings[-1]

    def step(self, activity: int) -> Stepped:
        """Does a step if it can be done."""
        stepped = self.library.step(self.graph, self.marking, activity)
        if stepped.number == DONE:
            self.done += bytes([activity])
            self.markings.append(stepped.marking)
        return stepped

    def undo(self) -> int | None:
        """Takes the last step back, and gives it; None where none was done."""
        if not self.done:
            return None
        last, self.done = self.done[-1], self.done[:-1]
        self.markings.pop()
        return last

    def included(self) -> list[int]:
        return library.sets(self.marking).included

    def owed(self) -> list[int]:
        """Pending and included."""
        sets = library.sets(self.marking)
        return [step for step in sets.pending if step in sets.included]

    def open(self) -> list[int]:
        """What could be done next: the marking holds it."""
        return library.sets(self.marking).enabled

    def may_end(self) -> bool:
        return self.library.replay(self.graph, self.done).accepting

    def way_out(self) -> list[int] | None:
        """The shortest way to the end, or None where four steps are not enough."""
        number, way = self.library.finish(self.graph, self.marking)
        return way if number == DONE else None

    def shut_by(self, activity: int) -> int | None:
        """What shut a step out, or None where nothing did since the opening."""
        return self.library.shut_by(self.graph, self.done, activity)

    def copy(self) -> Play:
        other = Play(self.library, self.graph)
        other.done, other.markings = self.done, [*self.markings]
        return other
