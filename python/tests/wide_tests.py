"""More than 64 step names (02, 10/12): the commands on logs and graph files of edition 2. The answers are those of 01's L and G with other numbers, which
no rule tells apart as long as their order is the same: 3, 64 and 96 for 0, 1 and 2."""
from trial import Gave, holds, log_bytes, same, test

NAMES = "".join(f"s{k}\n" for k in range(97))
CALLS = "steps\ns3,s64,s96\ns3,s96\n"
LOG = log_bytes(97, [3, 64, 96], [3, 96])

LISTING = b"""\
events 3 C 2 R 2 I 1 E 4 traces 2
C 3 64
C 3 96
R 3 96
R 64 96
I 3 64
E 3 3
E 64 64
E 96 64
E 96 96
T 0 3 0 1
T 1 2 0 1
"""

MARKS = b"TP 2\nFP 0\nFN 0\nTN 0\nprecision 2 2\nrecall 2 2\naccuracy 2 2\n"


def made(folder):
    """The log and its 97 names, made by ./skelfora log."""
    folder.put("port.names", NAMES)
    folder.put("port.csv", CALLS)
    gave = folder.run("./skelfora", "log", "port.csv", "port.log")
    same((gave.status, gave.out), (0, b"2 calls, 5 steps, 97 names\n"), "./skelfora log")


def graph():
    """Its graph's file: a head of 84 bytes, rows of 17, offsets 17 a row."""

    def members(*steps):
        return sum(1 << step for step in steps).to_bytes(16, "little")

    rows = [(64, [3]), (96, [3]), (3, [96]), (64, [96]), (3, [64]), (3, [3]), (64, [64]), (96, [64, 96])]
    head = bytes([66, 71, 2, 97]) + members(3, 64, 96) + members() + members() + members(3, 64, 96)
    contents = b"".join(number.to_bytes(2, "little") for number in (0, 2, 34, 2, 68, 1, 85, 3))
    return head + contents + b"".join(bytes([key]) + members(*steps) for key, steps in rows)


@test("97 step names: ./skelfora log writes edition 2 and shows it again, ./skelfora list lists it by number and in sentences")
def listed(folder):
    made(folder)
    same(folder.get("port.log"), LOG, "the log")
    same(list(LOG[:4]), [66, 76, 2, 97], "the edition")
    same(folder.run("./skelfora", "log", "--show", "port.log"), Gave(0, CALLS.encode(), ""), "--show")
    same(folder.run("./skelfora", "list", "full", "port.log"), Gave(0, LISTING, ""), "./skelfora list full")
    light = LISTING.replace(b"E 4", b"E 3").replace(b"E 96 64\n", b"")
    same(folder.run("./skelfora", "list", "port.log").out, light, "./skelfora list")
    told = folder.run("./skelfora", "list", "--names", "port.names", "port.log").out.decode()
    holds("\n  s96 waits for s3 (while s3 is in)\n" in told, f"in sentences: {told!r}")
    # over an older log of either edition, and over nothing else
    folder.put("port.csv", "steps\ns3\n")
    same(folder.run("./skelfora", "log", "port.csv", "port.log").status, 0, "over a log of edition 2")
    folder.put("port.log", b"BL\x03")
    same(folder.run("./skelfora", "log", "port.csv", "port.log").status, 2, "over what is no log")


@test("97 step names: ./skelfora call, on the log and on the graph's file")
def called(folder):
    made(folder)
    folder.put("port.graph", graph())
    for file in ("port.log", "port.graph"):
        wanted = "1 s3: done; owed: s96; open: s64, s96; may end: no\n2 s96: done; shuts out s64; owed: none; open: none; may end: yes\n"
        gave = folder.run("./skelfora", "call", file, "s3", "s96")
        same((gave.status, gave.out.decode()), (0, wanted + "way out: none needed, the call may end now\n"), f"{file} s3 s96")
        gave = folder.run("./skelfora", "call", file, "s3")
        same(gave.out.decode().splitlines()[-1], "way out: s96", f"{file} s3")
        gave = folder.run("./skelfora", "call", file, "s96", "s0", "s3", "s3")
        lines = gave.out.decode().splitlines()
        refused = ["1 s96: refused 10, waits for s3", "1 s0: refused 8, no such step", "2 s3: refused 9, shut itself out"]
        same((gave.status, [lines[0], lines[1][: len(refused[1])], lines[3]]), (1, refused), f"{file} refused")
    folder.put("cut.graph", graph()[:83])
    folder.put("small.graph", graph()[:3] + b"\x05" + graph()[4:])
    folder.put("other.graph", b"BG\x01" + graph()[3:])
    for file, number in (("cut.graph", 1), ("small.graph", 3), ("other.graph", 3)):
        gave = folder.run("./skelfora", "call", file)
        same((gave.status, gave.out, gave.err.count("\n")), (1, b"refused %d\n" % number, 1), file)


@test("97 step names: ./skelfora desk, on the log and on the graph's file")
def at_the_desk(folder):
    made(folder)
    folder.put("port.graph", graph())
    day = [
        ("open", "0 place 0 blocker none"),
        ("open", "0 place 1 blocker none"),
        ("step 0 s96", "10 place 0 blocker s3"),
        ("step 0 97", "8 place 0 blocker none"),
        ("step 0 128", "8 place 0 blocker none"),
        ("step 0 s3", "0 place 0 blocker none"),
        ("show 0", "place 0 executed s3 pending s96 included s64, s96 enabled s64, s96"),
        ("show 1", "place 1 executed none pending none included s3, s64, s96 enabled s3"),
        ("way 0", "place 0 way out: s96"),
        ("close 0", "15 place 0 blocker none"),
        ("step 0 s96", "0 place 0 blocker none"),
        ("show", "open 0: none; 1: s3"),
        ("close 0", "0 place 0 blocker none"),
        ("show", "open 1: s3"),
        ("step 0 s3", "14 place 0 blocker none"),
        ("open", "0 place 0 blocker none"),
    ]
    requests = "".join(line + "\n" for line, _ in day).encode()
    for words in (["--mine", "port.log"], ["port.graph"]):
        gave = folder.run("./skelfora", "desk", "--names", "port.names", *words, data=requests)
        same((gave.status, gave.err), (0, ""), " ".join(words))
        same(gave.out.decode().splitlines(), [answer for _, answer in day], " ".join(words))
    full = folder.run("./skelfora", "desk", "port.graph", data=b"open\n" * 33)
    same(full.out.decode().splitlines()[31:], ["0 place 31 blocker none", "13 place none blocker none"], "32 places")


@test("97 step names: ./skelfora marks and ./skelfora nightly score them; ./skelfora year says that a tally has room for 64")
def marked(folder):
    made(folder)
    folder.put("port.graph", graph())
    folder.put("port.labels", "11")
    same(folder.run("./skelfora", "marks", "port.graph", "port.log", "port.labels"), Gave(0, MARKS, ""), "./skelfora marks")
    gave = folder.run("./skelfora", "nightly", ".")
    same((gave.status, gave.out), (0, b"port.log\n" + LISTING + MARKS), "./skelfora nightly")
    gave = folder.run("./skelfora", "year", "port.log")
    same((gave.status, gave.out), (1, b"refused 3\n"), "./skelfora year")
    wanted = "year: port.log: 3: more than 64 activities: a tally has room for 64, so such months can't be put together"
    same(gave.err.splitlines()[-1], wanted, "./skelfora year in words")


@test("the container terminal: ten calls over its 97 step names, mined, replayed and shown again")
def terminal(folder):
    gave = folder.run("./skelfora", "log", "data/terminal.csv", "terminal.log")
    same((gave.status, gave.out), (0, b"10 calls, 476 steps, 97 names\n"), "./skelfora log")
    same(folder.get("terminal.log")[:6], bytes([66, 76, 2, 97, 10, 0]), "the log")
    # the counts are those of the judge of compare/
    counts = {"full": "C 202 R 138 I 4041 E 5551", "light": "C 134 R 138 I 33 E 161"}
    for profile in counts:
        lines = folder.run("./skelfora", "list", profile, "terminal.log").out.decode().splitlines()
        same(lines[0], f"events 97 {counts[profile]} traces 10", profile)
        replays = [line.split() for line in lines if line[0] == "T"]
        same([line[3:] for line in replays], [["0", "1"]] * 10, "every call of its own log is done and may end")
    shown = folder.run("./skelfora", "log", "--show", "terminal.log").out
    same(folder.run("./skelfora", "log", "-", "again.log", data=shown).status, 0, "shown, and made again")
    same(folder.get("again.log"), folder.get("terminal.log"), "the same log")
    gave = folder.run("./skelfora", "call", "terminal.log", "Announce call")
    holds(gave.status == 0 and gave.out.startswith(b"1 Announce call: done; "), f"./skelfora call: {gave}")
