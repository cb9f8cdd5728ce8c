"""A log of calls, for programs: read, or made from tables, rows and lines of step names; and mined."""
from __future__ import annotations

import os
from collections.abc import Iterable, Sequence
from typing import Any

from . import calls, library, logfile, names, outfiles, reading, rows
from .calls import Call
from .faults import Fault, Refused
from .graph import Graph
from .naming import Naming


class Log:
    """Calls, each of steps by name. `data` is the log's file (docs/FORMATS.md); `names` are its steps' names, None where there are none."""

    def __init__(self, data: bytes, given: Sequence[str] | None = None) -> None:
        self.data = data
        self.naming = Naming(given)

    @classmethod
    def read(cls, path: str | os.PathLike[str], names: str | os.PathLike[str] | None = None) -> Log:
        """A log's file, with the names that stand beside it or in another file. Refused is what the rules refuse."""
        file = os.fspath(path)
        data = logfile.read(file)
        number = library.loaded().judge_log(data)
        if number:
            raise Refused(number, logfile.MEANING[number])
        return cls(data, Naming.of(None if names is None else os.fspath(names), file, data[3]).given)

    @classmethod
    def from_table(
        cls, source: str | os.PathLike[str] | Iterable[Sequence[Any]], call: str | None = None, step: str | None = None, once: bool = False
    ) -> Log:
        """A table's or an XES file's calls, or those of rows of case, step and, if it is there, time. `once`: each different call once."""
        if isinstance(source, (str, os.PathLike)):
            return cls.of(reading.read(os.fspath(source), "table", call, step).calls, once)
        return cls.of(rows.read(source), once)

    @classmethod
    def from_lines(cls, source: str | os.PathLike[str] | Iterable[Iterable[str]], once: bool = False) -> Log:
        """A file with a call a line, or calls that are each some step names."""
        if isinstance(source, (str, os.PathLike)):
            return cls.of(reading.read(os.fspath(source), "lines").calls, once)
        return cls.of([Call(line, [rows.text(step, line, "step") for step in steps]) for line, steps in enumerate(source, 1)], once)

    @classmethod
    def of(cls, found: list[Call], once: bool = False) -> Log:
        """Calls by name, numbered in the order in which they have the names."""
        kept = calls.once(found) if once else found
        given = names.extended([], kept)
        logfile.check(kept, given)
        return cls(logfile.encoded(kept, given), given)

    @property
    def names(self) -> tuple[str, ...] | None:
        return None if self.naming.given is None else tuple(self.naming.given[: self.data[3]])

    @property
    def calls(self) -> list[tuple[str, ...]]:
        """Each call's steps, by name."""
        return [tuple(map(self.naming.shown, trace)) for trace in logfile.traces(self.data)]

    def mine(self, profile: str = "light") -> Graph:
        """The graph of this log: "light", or "full" with the many exclusions and inclusions of step 6."""
        if profile not in library.PROFILES:
            raise Fault(f"{profile!r} is neither full nor light")
        number, graph = library.loaded().mine(self.data, library.PROFILES.index(profile))
        if number:
            raise Refused(number, logfile.MEANING[number])
        return Graph(graph, self.names)

    def write(self, path: str | os.PathLike[str]) -> None:
        """The log's file, and its names beside it."""
        file = os.fspath(path)
        outfiles.write_all([*names.growing(file, self.names), (file, self.data)])
