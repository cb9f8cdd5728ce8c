"""Why a step of a call is refused: the library's number, what is in the way, and the sentence."""
from __future__ import annotations

from . import graphfile, sentences
from .faults import Refused
from .library import NOT_INCLUDED, WAITING
from .naming import Naming
from .play import Play


def refusal(play: Play, naming: Naming, word: str, step: int, number: int, blocker: int) -> Refused:
    """A step as it was called, by its number, at this point of a call. By 10 the blocker is the library's, by 9 what shut the step out last."""
    by = blocker if number == WAITING else play.shut_by(step) if number == NOT_INCLUDED else None
    in_way = None if by is None else naming.shown(by)
    near = naming.nearest(word, graphfile.events(play.graph))
    return Refused(number, sentences.refused_step(number, by == step, in_way, near), in_way)
