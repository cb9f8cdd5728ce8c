"""Calls from XES, the exchange format of event logs (IEEE 1849): a call for each trace, a step for each event that is complete."""
from __future__ import annotations

from xml.parsers import expat

from .calls import Call, Found
from .faults import Fault
from .names import checked, clean

NAME = "concept:name"
LIFECYCLE = "lifecycle:transition"


class Reader:
    """Walks the elements. Only attributes that stand directly in an event count, so those of `global` and nested ones do not."""

    def __init__(self) -> None:
        self.calls: list[Call] = []
        self.left_out = 0
        self.path: list[str] = []
        # an event that is open: the line where it begins, and its attributes
        self.event: tuple[int, dict[str, str]] | None = None
        self.parser = expat.ParserCreate(namespace_separator=" ")
        self.parser.StartElementHandler = self.start
        self.parser.EndElementHandler = self.end
        self.parser.StartDoctypeDeclHandler = self.doctype

    @property
    def line(self) -> int:
        return self.parser.CurrentLineNumber

    def doctype(self, *_: object) -> None:
        raise Fault(f"line {self.line}: a document type is not taken")

    def start(self, tag: str, attributes: dict[str, str]) -> None:
        self.path.append(tag.split(" ")[-1].lower())
        if len(self.path) == 1 and self.path != ["log"]:
            raise Fault(f"line {self.line}: no XES: the first element is {self.path[0]!r}, not 'log'")
        if self.path == ["log", "trace"]:
            self.calls.append(Call(self.line, []))
        elif self.path[:1] == ["log"] and self.path[-1] == "event" and len(self.path) <= 3:
            self.event = (self.line, {})
        elif self.event is not None and self.path[:-1] == ["log", "trace", "event"]:
            self.event[1][attributes.get("key", "")] = attributes.get("value", "")

    def end(self, _tag: str) -> None:
        if self.event is not None and self.path == ["log", "trace", "event"]:
            self.take(*self.event)
            self.event = None
        elif self.event is not None and self.path == ["log", "event"]:
            raise Fault(f"line {self.event[0]}: an event outside any trace")
        self.path.pop()

    def take(self, line: int, event: dict[str, str]) -> None:
        if event.get(LIFECYCLE, "complete").lower() != "complete":
            self.left_out += 1
            return
        name = clean(event.get(NAME, ""))
        if not name:
            raise Fault(f"line {line}: no step (an event without {NAME})")
        self.calls[-1].steps.append(checked(name, line))


def read(data: bytes) -> Found:
    """The calls in the bytes of an XES file."""
    reader = Reader()
    try:
        reader.parser.Parse(data, True)
    except expat.ExpatError as error:
        raise Fault(f"line {error.lineno}: {expat.ErrorString(error.code)}") from error
    left_out = f"; {reader.left_out:,} events left out, not complete" if reader.left_out else ""
    return Found(reader.calls, f"XES: a trace is a call{left_out}")
