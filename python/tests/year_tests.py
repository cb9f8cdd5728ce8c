"""./skelfora year: months put together, with listings worked out by hand from 01's steps and 02's 12/12; saved tallies; what is refused; how it ends."""
import pages
from trial import Gave, holds, log_bytes, read, same, test

NOTE = "year: steps 9 and 10 are not in it: they need the calls, and a tally has none\n"


def lines(text):
    return "".join(line + "\n" for line in text.split(", ")).encode()


# L's pairs: no condition of L comes from step 9, so the year has them all. Full has one exclusion more.
LIGHT = lines("events 3 C 2 R 2 I 1 E 3, C 0 1, C 0 2, R 0 2, R 1 2, I 0 1, E 0 0, E 1 1, E 2 2")
FULL = lines("events 3 C 2 R 2 I 1 E 4, C 0 1, C 0 2, R 0 2, R 1 2, I 0 1, E 0 0, E 1 1, E 2 1, E 2 2")

# 1 and 3 never meet, so each shuts the other out, and by step 9 of mining 2 waits for both: not so here.
ASIDE = lines("events 4 C 3 R 3 I 2 E 6, C 0 1, C 0 2, C 0 3, R 0 2, R 1 2, R 3 2, I 0 1, I 0 3, E 0 0, E 1 1, E 1 3, E 2 2, E 3 1, E 3 3")


def listed(folder, wanted, *words):
    """Holds what ./skelfora year prints, and what it says beside it."""
    same(folder.run("./skelfora", "year", *words), Gave(0, wanted, NOTE), f"./skelfora year {' '.join(words)}")


@test("./skelfora year: L, a call a month, gives L's pairs, in any order and however often; in either profile, light where none is named")
def months_of_l(folder):
    folder.put("may.log", log_bytes(3, [0, 1, 2]))
    folder.put("june.log", log_bytes(3, [0, 2]))
    folder.put("none.log", log_bytes(0))
    for months in (["may.log", "june.log"], ["june.log", "may.log"], ["data/L.log"], ["june.log", "none.log", "may.log", "data/L.log", "june.log"]):
        listed(folder, LIGHT, *months)
        listed(folder, LIGHT, "light", *months)
        listed(folder, FULL, "full", *months)
    gave = folder.run("./skelfora", "year", "full", "-", "june.log", data=log_bytes(3, [0, 1, 2]))
    same(gave, Gave(0, FULL, NOTE), "a month from standard input")


@test("./skelfora year: a step that a month does not know is absent in it; the larger number of activities; only steps 1 to 8")
def absent(folder):
    folder.put("may.log", log_bytes(2, [1]))
    folder.put("june.log", log_bytes(5, [4, 1]))
    for months in (["may.log", "june.log"], ["june.log", "may.log"]):
        listed(folder, lines("events 2 C 0 R 1 I 0 E 3, R 4 1, E 1 1, E 1 4, E 4 4"), "full", *months)
        listed(folder, lines("events 2 C 0 R 1 I 0 E 2, R 4 1, E 1 1, E 4 4"), *months)
    folder.put("may.log", log_bytes(3, [0, 1, 2]))
    folder.put("june.log", log_bytes(4, [0, 3, 2]))
    listed(folder, ASIDE, "may.log", "june.log")
    folder.put("none.log", log_bytes(7, []))
    listed(folder, lines("events 0 C 0 R 0 I 0 E 0"), "none.log")


@test("./skelfora year: more calls together than a log can have")
def many(folder):
    for k in range(3):
        folder.put(f"{k}.log", log_bytes(3, *([[0, 1, 2]] * 1023), [0, 2]))
    listed(folder, FULL, "full", "0.log", "1.log", "2.log")


@test("./skelfora year --save: 36,864 bytes that are taken beside logs, joined again and written over; nothing else is")
def saved(folder):
    folder.put("may.log", log_bytes(3, [0, 1, 2]))
    folder.put("june.log", log_bytes(4, [0, 3, 2]))
    listed(folder, lines("events 3 C 2 R 2 I 2 E 3, C 0 1, C 1 2, R 0 1, R 1 2, I 0 1, I 1 2, E 0 0, E 1 1, E 2 2"), "--save", "year.tally", "may.log")
    may = folder.get("year.tally")
    same((len(may), may[0], may[8]), (36864, 3, 7), "the tally of May")
    listed(folder, ASIDE, "year.tally", "june.log")
    same(folder.get("year.tally"), may, "without --save")
    listed(folder, ASIDE, "june.log", "--save", "year.tally", "year.tally")
    year = folder.get("year.tally")
    same((len(year), year[0], year[8]), (36864, 4, 15), "the tally of the year")
    listed(folder, ASIDE, "light", "year.tally", "--save", "again", "may.log", "year.tally")
    same(folder.get("again"), year, "joined with what is in it")
    for name in ("may.log", "data/calls.csv"):
        gave = folder.run("./skelfora", "year", "--save", name, "june.log")
        same((gave.status, gave.out, gave.err), (2, b"", f"year: {name} is there and is no tally: it is not written over\n"), name)


@test("./skelfora year --names: the year in sentences, and no calls; too few names are one line more, and nothing is saved")
def in_words(folder):
    folder.put("may.log", log_bytes(2, [1]))
    folder.put("june.log", log_bytes(5, [4, 1]))
    folder.put("all.names", "Request\nAssign\nSeal\nAmend\nWaive\n")
    first = "2 steps; 0 conditions, 1 response, 0 includes, 2 excludes\n"
    words = first + "\nAssign\n  Assign shuts itself out\n\nWaive\n  after Waive, Assign is owed\n  Waive shuts itself out\n"
    listed(folder, words.encode(), "--names", "all.names", "may.log", "june.log")
    folder.put("few.names", "Request\nAssign\n")
    gave = folder.run("./skelfora", "year", "--names", "few.names", "--save", "kept", "may.log", "june.log")
    same(gave, Gave(3, b"", NOTE + "year: few.names has 2 names, and the year has 5 activities\n"), "too few names")
    holds(not folder.has("kept"), "saved all the same")


@test("./skelfora year: a refused month is named, and nothing else is printed or saved; wrong use; what can't be read or written")
def ends(folder):
    folder.put("cut.log", read("data", "L.log")[:-1])
    folder.put("bad.log", log_bytes(1, [1]))
    folder.put("sound", bytes([64]) + bytes(36863))
    folder.put("short", bytes(36863))
    folder.put("long", bytes(36865))
    folder.put("above", bytes([65]) + bytes(36863))
    folder.put("empty", b"")
    listed(folder, LIGHT, "sound", "data/L.log")
    for name, number in (("cut.log", 1), ("bad.log", 5), ("short", 2), ("long", 2), ("above", 2), ("empty", 1), ("data/calls.csv", 2)):
        gave = folder.run("./skelfora", "year", "data/L.log", name, "--save", "kept", "data/L.log")
        same((gave.status, gave.out), (1, b"refused %d\n" % number), name)
        first, second = gave.err.splitlines()
        same(first + "\n", NOTE, "its first line")
        holds(second.startswith(f"year: {name}: {number}: "), second)
    misused = [[], ["full"], ["-", "-"], ["--save"], ["--nosuch", "data/L.log"], ["--save", "cut.log", "data/L.log"]]
    for words in [*misused, ["full", "light", "data/L.log"], ["nosuch.log"], ["data"], ["--names", "nosuch", "data/L.log"]]:
        gave = folder.run("./skelfora", "year", *words)
        same((gave.status, gave.out, gave.err.count("\n")), (2 if words in misused else 3, b"", 1), f"./skelfora year {' '.join(words)}")
    gave = folder.run("./skelfora", "year", "--save", "nowhere/kept", "data/L.log")
    same((gave.status, gave.out, gave.err.count("\n")), (3, b"", 2), "a place where nothing can be written")
    holds(not folder.has("kept"), "saved though refused")
    full = folder.shell("./skelfora year data/L.log >/dev/full")
    same((full.status, full.err.count("\n")), (3, 2), "a full device")


@test("FORMATS: the tally of the call 0, 1, 0, byte by byte, is the one that ./skelfora year saves")
def byte_by_byte(folder):
    folder.put("one.log", log_bytes(2, [0, 1, 0]))
    same(folder.run("./skelfora", "year", "--save", "one.tally", "one.log").status, 0, "./skelfora year --save")
    (_, *rows), = pages.tables("docs/FORMATS.md", "bytes of the tally")
    wanted = bytearray(36864)
    for numbers, at, _what in rows:
        wanted[int(at) : int(at) + 8] = bytes(map(int, numbers.split()))
    same(folder.get("one.tally"), bytes(wanted), "the tally")
