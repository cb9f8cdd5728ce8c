"""./skelfora desk: what each request is answered, what is no request, how it ends. The answers are worked out by hand from 01's G and 02's 5/12, 6/12 and 8/12."""
import os

from trial import ROOT, Gave, holds, read, same, test

G = os.path.join("crates", "cases", "data", "sample.graph")


def asked(folder, lines, *words):
    """What ./skelfora desk answers to lines, on G where no words are given."""
    gave = folder.run("./skelfora", "desk", *(words or [os.path.join(ROOT, G)]), data="".join(line + "\n" for line in lines).encode())
    same((gave.status, gave.err), (0, ""), f"./skelfora desk {' '.join(words)}")
    return gave.out.decode().splitlines()


# A request, and its answer on G: 0 Request, 1 Inspect, 2 Assign.
DAY = [
    ("show", "open none"),
    ("step 0 0", "14 place 0 blocker none"),
    ("close 0", "14 place 0 blocker none"),
    ("way 0", "14 place 0 blocker none"),
    ("open", "0 place 0 blocker none"),
    ("open", "0 place 1 blocker none"),
    ("way 0", "place 0 way out: none needed, the call may end now"),
    ("show 0", "place 0 executed none pending none included 0 1 2 enabled 0"),
    ("step 0 2", "10 place 0 blocker 0"),
    ("step 0 3", "8 place 0 blocker none"),
    ("step 0 255", "8 place 0 blocker none"),
    ("step 0 0", "0 place 0 blocker none"),
    ("show", "open 0: 1 2; 1: 0"),
    ("way 0", "place 0 way out: 2"),
    ("way 1", "place 1 way out: none needed, the call may end now"),
    ("show 0", "place 0 executed 0 pending 2 included 1 2 enabled 1 2"),
    ("show 1", "place 1 executed none pending none included 0 1 2 enabled 0"),
    ("step 0 0", "9 place 0 blocker none"),
    ("close 0", "15 place 0 blocker none"),
    ("step 1 2", "10 place 1 blocker 0"),
    ("step 0 2", "0 place 0 blocker none"),
    ("show 0", "place 0 executed 0 2 pending none included none enabled none"),
    ("show", "open 0: none; 1: 0"),
    ("close 0", "0 place 0 blocker none"),
    ("show", "open 1: 0"),
    ("show 0", "14 place 0 blocker none"),
    ("way 0", "14 place 0 blocker none"),
    ("close 0", "14 place 0 blocker none"),
    ("step 31 0", "14 place 31 blocker none"),
    ("step 32 0", "14 place 32 blocker none"),
    ("close 255", "14 place 255 blocker none"),
    ("close 256", "14 place 256 blocker none"),
    ("way 32", "14 place 32 blocker none"),
    ("step 18446744073709551616 0", "14 place 18446744073709551616 blocker none"),
    ("open", "0 place 0 blocker none"),
    ("show 0", "place 0 executed none pending none included 0 1 2 enabled 0"),
]


OPENING = "place 0 executed none pending none included 0 1 2 enabled 0"


@test("./skelfora desk: a day at G, by a graph file and by --mine, answered line by line as 02 has it")
def a_day(folder):
    for words in ([os.path.join(ROOT, G)], ["--mine", "data/L.log"]):
        same(asked(folder, [line for line, _ in DAY], *words), [answer for _, answer in DAY], " ".join(words))


@test("./skelfora desk: 32 places, then 13; the lowest that was freed is used again")
def full(folder):
    lines = ["open"] * 33 + ["close 7", "close 3", "open", "open", "open"]
    wanted = [f"0 place {place} blocker none" for place in range(32)] + ["13 place none blocker none"]
    wanted += ["0 place 7 blocker none", "0 place 3 blocker none", "0 place 3 blocker none", "0 place 7 blocker none", "13 place none blocker none"]
    same(asked(folder, lines), wanted, "a full desk")


@test("./skelfora desk: a line that is no request gets one line that says so, and changes nothing")
def no_request(folder):
    wrong = ["", "opened", "open 1", "step", "step 0", "step 0 256", "step x 0", "step 0 x", "step -1 0", "close", "close 0 0", "close 0x0", "way", "way x", "way 0 0", "show x", "Open", "step ٣ 0"]
    lines = [line for one in wrong for line in (one, "show", "show 0")]
    answers = asked(folder, ["open", *lines])[1:]
    same(len(answers), len(lines), "a line for each")
    for k, one in enumerate(wrong):
        holds(answers[3 * k].startswith("no request: "), f"{one!r} says {answers[3 * k]!r}")
        same(answers[3 * k + 1 : 3 * k + 3], ["open 0: 0", OPENING], f"after {one!r}")
    gave = folder.run("./skelfora", "desk", "--mine", "data/L.log", data=b"\xff\xfe\nopen")
    same((gave.status, gave.out.count(b"\n"), gave.out.splitlines()[1]), (0, 2, b"0 place 0 blocker none"), "bytes that are no text, and no last line break")


@test("./skelfora desk --names: steps by name in and out, by number too; too few names are one line")
def by_name(folder):
    folder.put("L.names", "Request\nBook pilot\nAssign\n")
    lines = ["open", "step 0 Assign", "step 0 Book pilot", "step 0 Request", "step 0 1", "way 0", "show 0", "show", "step 0 Nothing", "step 0 200"]
    wanted = [
        "0 place 0 blocker none",
        "10 place 0 blocker Request",
        "10 place 0 blocker Request",
        "0 place 0 blocker none",
        "0 place 0 blocker none",
        "place 0 way out: Assign",
        "place 0 executed Request, Book pilot pending Assign included Assign enabled Assign",
        "open 0: Assign",
        "no request: no step is called 'Nothing'",
        "8 place 0 blocker none",
    ]
    same(asked(folder, lines, "--names", "L.names", "--mine", "data/L.log"), wanted, "by name")
    folder.put("few.names", "Request\n")
    gave = folder.run("./skelfora", "desk", "--names", "few.names", "--mine", "data/L.log", data=b"open\n")
    same(gave, Gave(3, b"", "desk: few.names has 1 names, and the graph has 3 activities\n"), "too few names")


# Two events and condition 0 to 0: 0 waits for itself, and it is owed at the opening. In the other graph 0 waits for 1.
def owed(source):
    contents = [0, 1, 9, 0, 9, 0, 9, 0]
    return b"BG\x01\x02" + b"".join(bytes([low]) + bytes(7) for low in (3, 0, 1, 3)) + b"".join(n.to_bytes(2, "little") for n in contents) + bytes([0, source]) + bytes(7)


@test("./skelfora desk way: two steps in their order; none within four")
def ways(folder):
    folder.put("chain.graph", owed(2))
    folder.put("stuck.graph", owed(1))
    folder.put("two.names", "Assign\nSurvey\n")
    lines = ["open", "way 0", "step 0 1", "way 0", "step 0 0", "way 0"]
    done = "0 place 0 blocker none"
    ended = "place 0 way out: none needed, the call may end now"
    same(asked(folder, lines, "chain.graph"), [done, "place 0 way out: 1 0", done, "place 0 way out: 0", done, ended], "0 waits for 1")
    named = asked(folder, lines[:2], "--names", "two.names", "chain.graph")
    same(named[1], "place 0 way out: Survey, Assign", "by name")
    stuck = asked(folder, ["open", "way 0", "step 0 1", "way 0"], "stuck.graph")
    same(stuck, [done, "place 0 way out: none within 4 steps", done, "place 0 way out: none within 4 steps"], "0 waits for itself")


@test("./skelfora desk: a refused graph or log, wrong use, what can't be read: one line, and the exit status of the other commands")
def ends(folder):
    folder.put("cut.graph", read(G)[:-1])
    folder.put("long.graph", read(G) + bytes(4000))
    folder.put("cut.log", read("data", "L.log")[:-1])
    for words, number in ((["cut.graph"], 1), (["long.graph"], 4), (["--mine", "cut.log"], 1), (["data/L.log"], 1)):
        gave = folder.run("./skelfora", "desk", *words, data=b"open\n")
        same((gave.status, gave.out, gave.err.count("\n")), (1, b"refused %d\n" % number, 1), " ".join(words))
    misused = [[], ["a", "b"], ["cut.graph", "--mine", "cut.log"], ["-"], ["--mine", "-"], ["--mine"], ["--nosuch", "cut.graph"]]
    for words in [*misused, ["nosuch.graph"], ["--mine", "nosuch.log"], ["data"], ["--names", "nosuch", "cut.graph"]]:
        gave = folder.run("./skelfora", "desk", *words, data=b"open\n")
        same((gave.status, gave.out, gave.err.count("\n")), (2 if words in misused else 3, b"", 1), f"./skelfora desk {' '.join(words)}")
    full = folder.shell("echo open | ./skelfora desk --mine data/L.log >/dev/full")
    same((full.status, full.err.count("\n")), (3, 1), "a full device")
