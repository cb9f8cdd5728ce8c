"""Recorded calls from a file, whichever of the forms of docs/FORMATS.md it has."""
from __future__ import annotations

from . import calls, table, xes
from .calls import Found
from .faults import Fault


def read(path: str, form: str | None = None, call: str | None = None, step: str | None = None) -> Found:
    """The calls of a file. A fault names the file, then the line."""
    data = calls.bytes_of(path)
    try:
        if calls.is_xml(data):
            return xes.read(data)
        return table.read(data, form, call, step)
    except Fault as fault:
        raise Fault(f"{path}: {fault}", fault.status) from fault
