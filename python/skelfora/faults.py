"""What ends a piece of work before it is done: one line for people, and the exit status of a command."""
from __future__ import annotations

# The exit status of a command, where it is not 0.
REFUSED = 1  # a log, graph, step, label or call is refused or out of order
MISUSED = 2  # used wrongly
FAILED = 3  # a file could not be read as what it should be, built or written


class Fault(Exception):
    """One line for people, and an exit status."""

    def __init__(self, message: str, status: int = FAILED) -> None:
        super().__init__(message)
        self.status = status


class Refused(Fault):
    """A refusal by the rules: its number (docs/FORMATS.md has them all), the step that is in the way, if one is, and a sentence."""

    def __init__(self, number: int, sentence: str, blocker: str | None = None) -> None:
        super().__init__(f"{number}: {sentence}", REFUSED)
        self.number = number
        self.blocker = blocker
        self.sentence = sentence


def reason(error: OSError) -> str:
    """Why the system refused, in its own words."""
    return error.strerror or str(error)
