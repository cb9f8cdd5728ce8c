"""Skelfora for Python: logs of calls, the graphs that are mined from them, and calls played on a graph, by the proved library.

    import skelfora

    log = skelfora.Log.from_table("calls.csv")
    graph = log.mine("light")
    call = graph.call()
    call.step("Request")

Steps are names. What the rules refuse is a `Refused`, with its number, what is in the way, and a sentence; a file that can't be read as
what it should be is a `Fault`, of which `Refused` is a kind."""
from .faults import Fault, Refused
from .graph import Call, Graph, Replay
from .log import Log

__version__ = "1.0.0"
__all__ = ["Call", "Fault", "Graph", "Log", "Refused", "Replay"]
