"""Steps by name, or by number where there are no names."""
from __future__ import annotations

import difflib
from collections.abc import Iterable, Sequence

from . import names
from .library import NO_STEP


class Naming:
    """How the steps of a log or a graph are called."""

    def __init__(self, given: Sequence[str] | None) -> None:
        self.given = None if given is None else list(given)

    @classmethod
    def of(cls, option: str | None, path: str, activities: int, what: str = "log") -> Naming:
        """The names in the file that is named, or in the one beside the path, or none."""
        beside = option if option is not None else names.own(path)
        return cls(None if beside is None else names.enough(names.read(beside), activities, beside, what))

    def shown(self, step: int) -> str:
        return str(step) if self.given is None else self.given[step]

    def listed(self, steps: Iterable[int]) -> str:
        return ", ".join(map(self.shown, steps)) or "none"

    def number(self, text: str) -> int | None:
        """The step that is meant: a name as it stands, or the only one that is the same but for capitals. None where there is none."""
        if self.given is None:
            return int(text) if text.isascii() and text.isdigit() and int(text) <= NO_STEP else None
        name = names.clean(text)
        alike = [name] if name in self.given else [one for one in self.given if one.casefold() == name.casefold()]
        return self.given.index(alike[0]) if len(alike) == 1 else None

    def nearest(self, text: str, steps: Iterable[int]) -> str | None:
        """Of these steps the name that is most like the text, or none."""
        if self.given is None:
            return None
        by_name = {self.given[step].casefold(): self.given[step] for step in steps}
        found = difflib.get_close_matches(text.casefold(), by_name, 1)
        return by_name[found[0]] if found else None
