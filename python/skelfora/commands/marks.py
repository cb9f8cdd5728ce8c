"""skelfora marks: a graph scored on a log with labels, or a student's guesses scored the same way, by the proved library."""
from __future__ import annotations

from .. import graphfile, labels, logfile
from ..command import Command, Parser, say, write
from ..faults import REFUSED
from ..library import Library

ABOUT = """\
Marks in exact numbers: how a graph's verdicts on the calls of a log agree with labels, 1 for a call in order and 0 for one that is not.
The verdict on a call is yes where its replay is done and accepting. Prints the four counts of the confusion table, then precision, recall
and accuracy as two whole numbers each, or none.

  skelfora marks port.graph calls.log calls.labels    a graph file, a log, and a label for each of its calls
  skelfora marks --guesses anna.guesses calls.labels  a student's guesses in place of the verdicts

Labels and guesses are a file each: bytes 0 and 1, or a text of 0 and 1."""

STATUS = "exit status: 0 marked, 1 the log, the graph, the labels or the guesses are refused, 2 used wrongly, 3 something could not be read or built"


def parser() -> Parser:
    words = Parser("marks", usage="(GRAPHFILE LOG | --guesses GUESSES) LABELS", description=ABOUT, epilog=STATUS)
    words.add_argument("--guesses", metavar="GUESSES", help="guesses to be marked, instead of a graph")
    words.add_argument("given", metavar="GRAPHFILE LOG LABELS", nargs="*", help="a graph file and a log (docs/FORMATS.md), and the labels of its calls")
    return words


def meaning(number: int) -> str:
    return labels.MEANING.get(number, "no graph file (docs/FORMATS.md, the numbers)")


def main(words: list[str]) -> int:
    reader = parser()
    options = reader.parse_intermixed_args(words)
    wanted = 1 if options.guesses is not None else 3
    if len(options.given) != wanted:
        reader.error("a graph file, a log and labels are wanted, or --guesses, guesses and labels")
    beside = labels.read(options.given[-1])
    if options.guesses is not None:
        guesses = labels.read(options.guesses)
        number, text = Library().guesses_text(guesses, beside)
    else:
        graph, log = graphfile.read(options.given[0]), logfile.read(options.given[1])
        number, text = Library().marks_text(graph, log, beside)
    write(text)
    if number:
        say(f"{number}: {meaning(number)}")
        return REFUSED
    return 0


COMMAND = Command("marks", main)
