"""Labels and guesses: a file with one for each trace, 1 in order and 0 not, as bytes or as text."""
from __future__ import annotations

from . import logfile
from .faults import Fault, reason

FIGURES = b"0123456789"
SPACE = b" \t\r\n"

# No file of labels is longer, however its text is spaced: a log has at most 1,024 traces.
MOST = 1 << 20


def read(path: str) -> bytes:
    """The bytes, one for each trace. A file of nothing but figures and white space is text, and each figure a label; any other is taken as it is.
    The figures' own bytes, 48 to 57, are no labels, so no file of labels is taken for the other kind."""
    try:
        with open(path, "rb") as file:
            data = file.read(MOST + 1)
    except OSError as error:
        raise Fault(f"can't read {path}: {reason(error)}") from error
    if len(data) > MOST:
        raise Fault(f"{path} is no file of labels: it has more than {MOST:,} bytes")
    if data.strip(FIGURES + SPACE):
        return data
    return bytes(byte - FIGURES[0] for byte in data if byte in FIGURES)


# What the numbers mean that marks add to a log's and a graph's.
MEANING = {
    **logfile.MEANING,
    3: "a number above its limit: in the log, in the graph, or more labels than a log has traces",
    18: "the labels are not as many as the traces, or the guesses not as many as the labels",
    19: "a label or a guess is above 1",
}
