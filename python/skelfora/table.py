"""Calls from text with separators (CSV). Two forms: a table with a row for each step, or a line for each call."""
from __future__ import annotations

import csv
import io
import re
from collections.abc import Iterable, Iterator

from .calls import Call, Found
from .faults import MISUSED, Fault
from .names import checked, clean, decoded

# What a column is called, in any case of letters. Of several that are there the first of this list counts.
CALL_WORDS = ["case", "case id", "case_id", "caseid", "case:concept:name"]
CALL_WORDS += ["call", "call id", "call_id", "vessel", "ship", "trace", "trace id"]
STEP_WORDS = ["activity", "step", "concept:name", "task", "action", "event"]
LINE_WORDS = ["steps", "activities", "events"]

# Of separators that are equally frequent the first counts: text has commas more often than the others.
SEPARATORS = "\t;,"

# The line where a row begins, and its cells.
Row = tuple[int, list[str]]


def read(data: bytes, form: str | None = None, call: str | None = None, step: str | None = None) -> Found:
    """The calls in a file's bytes. `form` is "table", "lines" or to be found out; `call` and `step` name columns."""
    text = re.sub(r"(?m)^[ \t]+(?=\r?$)", "", decoded(data))
    rows = list(rows_of(text, separator(text)))
    if not rows:
        raise Fault("nothing in it: no call")
    line, first = rows[0]
    head = heading(first)
    if call is None and step is None:
        if form != "table" and heads_lines(head):
            return by_lines(rows[1:], len(head) - 1)
        if form == "lines" or form is None and not heads_table(head) and len(first) != 2:
            return by_lines(rows, 0)
        if not heads_table(head):
            return by_rows(rows, (0, 1), 2)
    return by_rows(rows[1:], columns(line, first, head, call, step), len(first))


def heading(cells: list[str]) -> list[str]:
    """The first line as headings: in small letters, without empty cells at its end."""
    head = [cell.lower() for cell in cells]
    while len(head) > 1 and not head[-1]:
        head.pop()
    return head


def heads_lines(head: list[str]) -> bool:
    """Whether this is the heading of a call a line: its steps alone, or first the call's name."""
    return head[-1] in LINE_WORDS and (len(head) == 1 or len(head) == 2 and head[0] in CALL_WORDS)


def heads_table(head: list[str]) -> bool:
    """Whether some column has a known name, of those that a table needs two of."""
    return len(head) > 1 and not {*CALL_WORDS, *STEP_WORDS}.isdisjoint(head)


def separator(text: str) -> str:
    """The separator that stands most often, outside quotes, in the first line that has any."""
    for line in re.sub(r'"[^"]*"', "", text).splitlines():
        found = max(SEPARATORS, key=line.count)
        if found in line:
            return found
    return ","


def rows_of(text: str, delimiter: str) -> Iterator[Row]:
    """Each row that has something in it: the line where it begins, and its cells."""
    reader = csv.reader(io.StringIO(text, newline=""), delimiter=delimiter, skipinitialspace=True, strict=True)
    line = 1
    try:
        for cells in reader:
            cells = [clean(cell) for cell in cells]
            if len(cells) == 1 or any(cells):
                yield line, cells
            line = reader.line_num + 1
    except csv.Error as error:
        raise Fault(f"line {line}: quotes that don't close, or text beside them ({error})") from error


def columns(line: int, first: list[str], head: list[str], call: str | None, step: str | None) -> tuple[int, int]:
    """Where call and step stand: in the columns named, or in those whose names are known."""
    return column(line, first, head, call, CALL_WORDS, "call"), column(line, first, head, step, STEP_WORDS, "step")


def column(line: int, first: list[str], head: list[str], name: str | None, known: list[str], what: str) -> int:
    if name is None:
        for word in known:
            if word in head:
                return head.index(word)
        raise Fault(f"line {line}: no column for the {what}; name it by --{what} (the columns are: {', '.join(first)})")
    if clean(name).lower() not in head:
        raise Fault(f"line {line}: no column {name!r} (the columns are: {', '.join(first)})", MISUSED)
    return head.index(clean(name).lower())


def by_rows(rows: Iterable[Row], where: tuple[int, int], width: int) -> Found:
    """A row for each step. Rows of one call need not stand together. No row has more cells than the heading, or the two columns."""
    at_call, at_step = where
    if at_call == at_step:
        raise Fault("call and step are the same column", MISUSED)
    steps: dict[str, Call] = {}
    for line, cells in rows:
        if any(cells[width:]):
            raise Fault(f"line {line}: {len(cells)} cells in a table of {width} columns (if each line is a call, say --lines)")
        call = cell(line, cells, at_call, "call")
        steps.setdefault(call, Call(line, [])).steps.append(cell(line, cells, at_step, "step"))
    return Found(list(steps.values()), f"a table: column {at_call + 1} is the call, column {at_step + 1} the step")


def cell(line: int, cells: list[str], at: int, what: str) -> str:
    if at >= len(cells) or not cells[at]:
        raise Fault(f"line {line}: no {what}")
    return checked(cells[at], line)


def by_lines(rows: Iterable[Row], first: int) -> Found:
    """A line for each call, its steps from cell `first` on. Cells left empty at a line's end are no steps."""
    calls = []
    for line, cells in rows:
        steps = cells[first:]
        while steps and not steps[-1]:
            steps.pop()
        calls.append(Call(line, [cell(line, steps, k, "step") for k in range(len(steps))]))
    return Found(calls, "a call a line, its steps " + ("after the call's name" if first else "from the first cell on"))
