"""Files written whole or not at all: each is made beside its place, and all are moved there once all are made."""
from __future__ import annotations

import os
from collections.abc import Sequence

from .faults import Fault, reason


def write_all(contents: Sequence[tuple[str, bytes]]) -> None:
    """Writes pairs of path and bytes, moved into place in this order. Where one can't be made, none is changed."""
    made: list[tuple[str, str]] = []
    try:
        for path, data in contents:
            place = os.path.realpath(path)
            if os.path.exists(place) and not os.path.isfile(place):
                raise Fault(f"{path} is no file that can be replaced")
            part = f"{place}.{os.getpid()}.part"
            made.append((part, place))
            with open(part, "xb") as file:
                file.write(data)
        while made:
            os.replace(*made[0])
            made.pop(0)
    except OSError as error:
        raise Fault(f"can't write {error.filename or contents[0][0]}: {reason(error)}") from error
    finally:
        for part, _ in made:
            if os.path.exists(part):
                os.unlink(part)
