"""Calls from rows that a program has: case, step and, if it is there, time, as tuples or as a pandas frame's `itertuples()` gives them."""
from __future__ import annotations

import datetime
import operator
from collections.abc import Iterable, Sequence
from typing import Any

from .calls import Call
from .faults import Fault
from .names import checked, clean
from .table import CALL_WORDS, STEP_WORDS

TIME_WORDS = ["time:timestamp", "timestamp", "time"]

# Where case, step and time stand in a row; no time is None.
Places = tuple[int, int, "int | None"]


def read(rows: Iterable[Sequence[Any]]) -> list[Call]:
    """The calls, in the order in which they begin. Where rows have a time, it decides the order within a call, stable for equal times."""
    found: dict[str, list[tuple[Any, str]]] = {}
    began: dict[str, int] = {}
    places: Places | None = None
    for line, row in enumerate(rows, 1):
        places = places or places_in(row)
        if len(row) <= max(at for at in places if at is not None):
            raise Fault(f"row {line}: fewer cells than the first row has")
        case, step = (text(row[at], line, what) for at, what in zip(places[:2], ("case", "step")))
        began.setdefault(case, line)
        found.setdefault(case, []).append((None if places[2] is None else moment(row[places[2]], line), step))
    return [Call(began[case], in_order(steps)) for case, steps in found.items()]


def places_in(row: Sequence[Any]) -> Places:
    """By the row's field names, where it has them and they are known; else case, step and time in this order."""
    fields = [str(field).lower() for field in getattr(row, "_fields", ())]
    case, step, time = (known_in(fields, words) for words in (CALL_WORDS, STEP_WORDS, TIME_WORDS))
    if case is not None and step is not None:
        return case, step, time
    # the first field of what pandas gives is the row's own label
    first = 1 if fields[:1] == ["index"] else 0
    if len(row) - first not in (2, 3):
        raise Fault("rows are of case and step, or of case, step and time" + (f"; these have {', '.join(fields)}" if fields else ""))
    return first, first + 1, first + 2 if len(row) - first == 3 else None


def known_in(fields: list[str], words: list[str]) -> int | None:
    return next((fields.index(word) for word in words if word in fields), None)


def text(value: Any, line: int, what: str) -> str:
    """A cell as a name. What is missing is None, or is not equal to itself, as a frame's empty cells are not."""
    name = "" if value is None or value != value else clean(str(value))
    if not name:
        raise Fault(f"row {line}: no {what}")
    return checked(name, line)


def moment(value: Any, line: int) -> Any:
    """A time that can be compared: a text only where it is ISO 8601, since other texts don't sort as the times that they mean."""
    if isinstance(value, str):
        try:
            return datetime.datetime.fromisoformat(value.strip().replace("Z", "+00:00"))
        except ValueError as error:
            raise Fault(f"row {line}: {value!r} is no time in ISO 8601; hand over datetimes or numbers") from error
    if value is None or value != value:
        raise Fault(f"row {line}: no time")
    return value


def in_order(steps: list[tuple[Any, str]]) -> list[str]:
    if steps[0][0] is None:
        return [step for _time, step in steps]
    try:
        return [step for _time, step in sorted(steps, key=operator.itemgetter(0))]
    except TypeError as error:
        raise Fault(f"times that can't be compared: {error}") from error
