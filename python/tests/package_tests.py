"""The package without its commands: logs from tables, rows and lines, graphs kept and replayed, calls played, and what is refused. The
answers are worked out by hand on Request, then Survey or Waive, then Assign, as in call_tests."""
import collections
import datetime
import os

import pages
import skelfora
from trial import holds, log_bytes, read, same, test

TWO = [("Request", "Survey", "Assign"), ("Request", "Waive", "Assign")]
NAMES = ("Request", "Survey", "Assign", "Waive")
DATA = log_bytes(4, [0, 1, 2], [0, 3, 2])
ROWS = [(case, step) for case, steps in zip("ab", TWO) for step in steps]


def refused(function, *given):
    """The refusal that a function ends with."""
    try:
        function(*given)
    except skelfora.Refused as why:
        return why.number, why.blocker, why.sentence
    return None


def fault(function, *given):
    try:
        function(*given)
    except skelfora.Refused as why:
        return f"refused {why.number}"
    except skelfora.Fault as why:
        return str(why)
    return None


@test("PYTHON: the page's programs print what it shows")
def page(folder):
    pages.run("docs/PYTHON.md", folder)


@test("the package: rows of case and step, in any mixture, with times, as a frame's itertuples() has them, and lines give the same log")
def logs(folder):
    frame = collections.namedtuple("Pandas", "Index time vessel step")
    bare = collections.namedtuple("Pandas", ["Index", "of call", "what done"], rename=True)
    times = [datetime.datetime(2026, 9, 14, 6 + k) for k in range(3)] * 2
    timed = [(case, step, time) for (case, step), time in zip(ROWS, times)]
    forms = {
        "rows": ROWS,
        "an iterator": iter(ROWS),
        "mixed": [ROWS[k] for k in (0, 3, 1, 4, 2, 5)],
        "times, last first": [timed[k] for k in (2, 1, 0, 5, 4, 3)],
        "times as text": [(case, step, time.isoformat() + "Z") for case, step, time in timed],
        "times as numbers": [(case, step, k) for k, (case, step) in enumerate(ROWS)],
        "a frame": [frame(k, time, case, step) for k, (case, step, time) in enumerate(timed)],
        "a frame without known names": [bare(k, *row) for k, row in enumerate(ROWS)],
        "cases that are numbers": [(ord(case), f" {step} ") for case, step in ROWS],
    }
    for form, rows in forms.items():
        log = skelfora.Log.from_table(rows)
        same((log.data, log.names, log.calls), (DATA, NAMES, TWO), form)
    same(skelfora.Log.from_lines(TWO).data, DATA, "lines")
    same(skelfora.Log.from_lines([*TWO, TWO[0]], once=True).data, DATA, "each different call once")
    folder.put("rows.csv", "call,step\n" + "".join(f"{case},{step}\n" for case, step in ROWS))
    folder.put("lines.csv", "".join(",".join(steps) + "\n" for steps in TWO))
    same(skelfora.Log.from_table(folder.at("rows.csv")).data, DATA, "a table's file")
    same(skelfora.Log.from_lines(folder.at("lines.csv")).data, DATA, "a file of lines")


@test("the package: rows that are wrong are a fault that names the row")
def wrong_rows(_folder):
    table = skelfora.Log.from_table
    for rows, said in (
        ([("a", "")], "row 1: no step"),
        ([("a", "x"), (None, "x")], "row 2: no case"),
        ([("a", float("nan"))], "row 1: no step"),
        ([("a", "x", "9:30")], "row 1: '9:30' is no time in ISO 8601; hand over datetimes or numbers"),
        ([("a", "x", 1), ("a", "y", None)], "row 2: no time"),
        ([("a", "x", 1), ("a", "y")], "row 2: fewer cells than the first row has"),
        ([("a",)], "rows are of case and step, or of case, step and time"),
        ([("a", "x\ny")], "line 1: a line break or another control character in 'x\\ny'"),
        ([("a", str(k)) for k in range(129)], "129 names, 128 are the most"),
    ):
        same(fault(table, rows), said, repr(rows[:2]))
    holds("compared" in (fault(table, [("a", "x", 1), ("a", "y", datetime.datetime(2026, 1, 1))]) or ""), "times of two kinds")


@test("the package: a log and a graph are written with their names and read again; names that are there only grow; what is refused")
def kept(folder):
    log = skelfora.Log.from_lines(TWO)
    log.write(folder.at("two.log"))
    graph = log.mine()
    graph.write(folder.at("two.graph"))
    same((folder.get("two.log"), folder.get("two.names").decode().split()), (DATA, list(NAMES)), "the files")
    again = skelfora.Log.read(folder.at("two.log"))
    same((again.calls, skelfora.Graph.read(folder.at("two.graph")).data), (TWO, graph.data), "read again")
    said = fault(skelfora.Log.from_lines([["Waive"]]).write, folder.at("two.log"))
    same((said, folder.get("two.log")), (f"{folder.at('two.names')} has other names: they are not written over", DATA), "other names")
    skelfora.Log.from_lines([*TWO, ["Seal"]]).write(folder.at("two.log"))
    same(folder.get("two.names").decode().split(), [*NAMES, "Seal"], "one name more")
    graph.write(folder.at("two.graph"))
    same(folder.get("two.names").decode().split(), [*NAMES, "Seal"], "which the graph's names leave")
    folder.put("cut.log", DATA[:-1])
    folder.put("cut.graph", graph.data[:-1])
    wanted = (1, None, "shorter than it must be: cut off, or no log at all")
    same(refused(skelfora.Log.read, folder.at("cut.log")), wanted, "a log that is cut")
    same(refused(skelfora.Graph.read, folder.at("cut.graph"))[0], 1, "a graph that is cut")
    same(refused(skelfora.Graph.read, folder.at("two.log"))[0], 1, "a log where a graph belongs")
    holds("can't read" in (fault(skelfora.Log.read, folder.at("nosuch.log")) or ""), "no file")
    same(fault(log.mine, "dark"), "'dark' is neither full nor light", "a profile that there is not")
    same(sorted(name for name in os.listdir(folder.path) if name.endswith(".part")), [], "half a file")


@test("the package: a call step by step, what is open and owed, what refuses a step, the way out, and steps taken back")
def played(_folder):
    call = skelfora.Log.from_lines(TWO).mine("light").call()
    same((call.open, call.owed, call.may_end, call.way_out()), (["Request"], [], True, []), "the opening")
    same(refused(call.step, "Survey"), (10, "Request", "waits for Request"), "before Request")
    call.step("Request")
    same((call.open, call.owed, call.may_end), (["Survey", "Waive"], ["Assign"], False), "after Request")
    same(refused(call.step, "Assign"), (10, "Survey", "waits for Survey"), "Assign first")
    same(refused(call.step, "Request"), (9, "Request", "shut itself out"), "Request again")
    call.step("waive")
    same(refused(call.step, "Survey"), (9, "Waive", "shut out by Waive"), "Survey after Waive")
    same(refused(call.step, "Asign"), (8, None, "no such step (did you mean Assign?)"), "no such step")
    same((call.done, call.way_out()), (["Request", "Waive"], ["Assign"]), "a refused step changes nothing")
    same((call.undo(), call.done, call.open, call.owed), ("Waive", ["Request"], ["Survey", "Waive"], ["Assign"]), "taken back")
    call.step("Survey")
    call.step("Assign")
    same((call.may_end, call.way_out(), call.open), (True, [], []), "the end")
    same([call.undo() for _ in range(3)], ["Assign", "Survey", "Request"], "all taken back")
    same((fault(call.undo), call.open), ("no step was done, so none can be taken back", ["Request"]), "and no more")


@test("the package: a log is replayed on a graph by name, in whichever order it has them; by number where either has no names")
def replayed(_folder):
    graph = skelfora.Log.from_lines(TWO).mine("light")
    wrong = [["Assign", "Request"], ["Request", "Waive", "Survey"], ["Request", "Moor"], ["Request", "Waive"]]
    other = skelfora.Log.from_lines([*wrong, *TWO])
    same(other.names[:3], ("Assign", "Request", "Waive"), "numbered otherwise")
    got = [(one.number, one.place, one.step, one.blocker, one.in_order, one.sentence) for one in graph.replay(other)]
    wanted = [
        # step 9 has Assign wait for Survey and Waive, step 10 then takes its condition from Request away
        (10, 0, "Assign", "Survey", False, "waits for Survey"),
        (9, 2, "Survey", "Waive", False, "shut out by Waive"),
        (8, 1, "Moor", None, False, "no such step"),
        (0, 2, None, None, False, "not finished: owes Assign"),
        (0, 3, None, None, True, "in order"),
        (0, 3, None, None, True, "in order"),
    ]
    same(got, wanted, "by name")
    bare = skelfora.Graph(graph.data)
    same([one.in_order for one in bare.replay(skelfora.Log(DATA))], [True, True], "by number")
    same([one.step for one in bare.replay(skelfora.Log(log_bytes(4, [1])))], ["1"], "a step by its number")
    full = skelfora.Graph(read("crates", "cases", "data", "sample.graph"))
    same(full.steps, ["0", "1", "2"], "steps without names")
