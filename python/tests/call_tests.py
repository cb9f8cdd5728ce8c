"""./skelfora call: a half-done call played, what refused a step, the way out, and how it ends."""
import os

from trial import Gave, holds, log_bytes, read, same, test

# The call: Request, then Survey or Waive, then Assign; worked out by hand on the light graph.
TWO = log_bytes(4, [0, 1, 2], [0, 3, 2])
NAMES = "Request\nSurvey\nAssign\nWaive\n"
PLAYED = """\
1 Request: done; owed: Assign; open: Survey, Waive; may end: no
2 Assign: refused 10, waits for Survey
2 Waive: done; shuts out Survey; owed: Assign; open: Assign; may end: no
way out: Assign
"""

# A graph of four steps: 0 shuts 1 out, 3 lets it in, 2 waits for 1 (crates/cases/data/class-again.graph).
AGAIN = "crates/cases/data/class-again.graph"


def one_line(err):
    return err.endswith("\n") and err.count("\n") == 1 and err.startswith("call: ")


def said(folder, *words, **how):
    gave = folder.run("./skelfora", "call", *words, **how)
    same(gave.err, "", " ".join(words))
    return gave.status, gave.out.decode()


def with_names(folder):
    folder.put("two.log", TWO)
    folder.put("two.names", NAMES)


@test("./skelfora call plays the call of 8/12 line for line, with the log's own names or those of --names; a refused step: exit status 1")
def plays(folder):
    with_names(folder)
    same(said(folder, "light", "two.log", "Request", "Assign", "Waive"), (1, PLAYED), "the call")
    folder.put("other.log", TWO)
    same(said(folder, "light", "--names", "two.names", "other.log", "request", "ASSIGN", "waive"), (1, PLAYED), "--names, any capitals")
    by_number = PLAYED
    for number, name in enumerate(NAMES.split()):
        by_number = by_number.replace(name, str(number))
    same(said(folder, "light", "other.log", "0", "2", "3"), (1, by_number), "by numbers")
    same(said(folder, "light", "-", "0", "2", "3", data=TWO), (1, by_number), "standard input")


@test("./skelfora call says what shut a step out, what it meant, and that there is no such step")
def says_why(folder):
    with_names(folder)
    _status, out = said(folder, "light", "two.log", "Request", "Request", "Waive", "Survey", "Asign", "Moor", "Assign")
    lines = out.splitlines()
    same(lines[1], "2 Request: refused 9, shut itself out", "itself")
    same(lines[3], "3 Survey: refused 9, shut out by Waive", "another")
    same(lines[4], "3 Asign: refused 8, no such step (did you mean Assign?)", "nearly")
    same(lines[5], "3 Moor: refused 8, no such step", "no such name")
    same(lines[6:], ["3 Assign: done; owed: none; open: none; may end: yes", "way out: none needed, the call may end now"], "the end")


@test("./skelfora call on a graph file: let in again, not included from the opening on, numbers up to 255")
def on_a_graph(folder):
    status, out = said(folder, AGAIN, "0", "1", "3", "2", "77", "1", "2")
    wanted = """\
1 0: done; shuts out 1; owed: none; open: 0, 2, 3; may end: yes
2 1: refused 9, shut out by 0
2 3: done; lets in 1; owed: none; open: 0, 1, 3; may end: yes
3 2: refused 10, waits for 1
3 77: refused 8, no such step
3 1: done; owed: none; open: 0, 1, 2, 3; may end: yes
4 2: done; owed: none; open: 0, 1, 2, 3; may end: yes
way out: none needed, the call may end now
"""
    same((status, out), (1, wanted), "class-again")
    data = bytearray(read(AGAIN))
    data[28] = 13  # 1 is not included at the opening
    folder.put("out.graph", bytes(data))
    _status, out = said(folder, "out.graph", "1")
    same(out.splitlines()[0], "1 1: refused 9, not included from the opening on", "the opening")


@test("./skelfora call shows a way of several steps with what each settles, that there is none within 4, or the opening where no step is named")
def ways(folder):
    # 2 is owed and waits for 1, which waits for 0
    chain = graph(3, pending=4, conditions={1: 1, 2: 2})
    folder.put("chain.graph", chain)
    wanted = """\
0 opening: owed: 2; open: 0; may end: no
way out: 0, 1, 2
1 0: settles nothing yet; owed: 2; may end: no
2 1: settles nothing yet; opens 2; owed: 2; may end: no
3 2: settles 2; owed: none; may end: yes
"""
    same(said(folder, "chain.graph"), (0, wanted), "a chain")
    folder.put("stuck.graph", graph(1, pending=1, conditions={0: 1}))
    same(said(folder, "stuck.graph"), (0, "0 opening: owed: 0; open: none; may end: no\nway out: none within 4 steps\n"), "stuck")


def graph(activities, pending, conditions):
    """A graph file with all steps included, and conditions alone: the target's number, then the set of its sources."""
    events = (1 << activities) - 1
    sets = b"".join(number.to_bytes(8, "little") for number in (events, 0, pending, events))
    end = 9 * len(conditions)
    entries = b"".join(number.to_bytes(2, "little") for number in (0, len(conditions), end, 0, end, 0, end, 0))
    rows = b"".join(bytes([key]) + sources.to_bytes(8, "little") for key, sources in sorted(conditions.items()))
    return bytes([66, 71, 1, activities]) + sets + entries + rows


@test("./skelfora call: a refused log or graph is one line and exit status 1; used wrongly one line and 2; what can't be read 3")
def refuses(folder):
    with_names(folder)
    for data, number in ((TWO[:19], 1), (b"C" + TWO[1:], 2), (TWO + b"\0", 4), (read(AGAIN)[:51], 1), (read(AGAIN) + b"\0", 4)):
        gave = folder.run("./skelfora", "call", "-", "0", data=data)
        same((gave.status, gave.out), (1, b"refused %d\n" % number), f"refusal {number}")
        holds(one_line(gave.err) and gave.err.startswith(f"call: {number}: "), f"refusal {number} says {gave.err!r}")
    misused = [[], ["full"], ["light", AGAIN, "0"], [AGAIN, "Waive"], [AGAIN, "256"], [AGAIN, "-1"], ["--nosuch", "two.log"], ["two.log", *["Request"] * 513]]
    unreadable = [["nosuch.log", "0"], ["data", "0"], ["--names", "nosuch", "two.log"], ["--names", "few.names", "two.log"]]
    folder.put("few.names", "Request\n")
    for words in misused + unreadable:
        gave = folder.run("./skelfora", "call", *words)
        same((gave.status, gave.out), (2 if words in misused else 3, b""), " ".join(words[:4]))
        holds(one_line(gave.err), f"{words[:4]} says {gave.err!r}")


@test("./skelfora call --help, and through a link from any folder")
def helps(folder):
    gave = folder.run("./skelfora", "call", "--help")
    same((gave.status, gave.err), (0, ""), "--help")
    holds(all(part in gave.out for part in (b"--names", b"STEP", b"exit status", b"May end")), "--help leaves something out")
    os.makedirs(folder.at("deep"))
    with_names(folder)
    same(folder.shell("cd deep && ../skelfora call light ../two.log Request Waive Assign >/dev/null"), Gave(0, b"", ""), "a link")
    same(folder.shell("cd deep && ../call light ../two.log Request Waive Assign >/dev/null"), Gave(0, b"", ""), "a link to ./call")
