"""./skelfora list: which log it takes, what it says, how it ends."""
import os
import pty
import socket
import sys

from trial import ROOT, Gave, holds, log_bytes, read, same, test

L = bytes([66, 76, 1, 3, 2, 0, 0, 0, 3, 0, 3, 0, 2, 0, 0, 1, 2, 0, 2])
FULL = b"""\
events 3 C 2 R 2 I 1 E 4 traces 2
C 0 1
C 0 2
R 0 2
R 1 2
I 0 1
E 0 0
E 1 1
E 2 1
E 2 2
T 0 3 0 1
T 1 2 0 1
"""

# Of the default: one exclusion fewer, E 2 1.
LISTING = b"""\
events 3 C 2 R 2 I 1 E 3 traces 2
C 0 1
C 0 2
R 0 2
R 1 2
I 0 1
E 0 0
E 1 1
E 2 2
T 0 3 0 1
T 1 2 0 1
"""

# Each number that refuses a log, and a log that gets it.
REFUSED = {
    1: L[:18],
    2: b"C" + L[1:],
    3: bytes([66, 76, 1, 65, 0, 0]),
    4: L + b"\0",
    5: L[:18] + b"\3",
}


def one_line(err):
    return err.endswith("\n") and err.count("\n") == 1 and err.startswith(("list: ", "log: "))


@test("./skelfora list FILE, ./skelfora list - and what is piped in give the light listing of L (02, 11/12), and say nothing beside it")
def lists(folder):
    wanted = Gave(0, LISTING, "")
    same(read("data", "L.log"), L, "data/L.log")
    same(folder.run("./skelfora", "list", "data/L.log"), wanted, "a file")
    same(folder.run("./skelfora", "list", "-", data=L), wanted, "-")
    same(folder.run("./skelfora", "list", data=L), wanted, "a pipe")
    with open(folder.at("data", "L.log"), "rb") as file:
        same(folder.run("./skelfora", "list", stdin=file), wanted, "a file as standard input")


@test("./skelfora list full and ./skelfora list light give the listing of that profile, of a file and of what is piped in")
def lists_in_a_profile(folder):
    for profile, wanted in (("full", FULL), ("light", LISTING)):
        same(folder.run("./skelfora", "list", profile, "data/L.log"), Gave(0, wanted, ""), f"{profile}, a file")
        same(folder.run("./skelfora", "list", profile, data=L), Gave(0, wanted, ""), f"{profile}, a pipe")
        same(folder.run("./skelfora", "list", profile, "-", data=L[:18]).out, b"refused 1\n", f"{profile}, refused")
    for name in ("full", "light"):
        os.symlink("data/L.log", folder.at(name))
        same(folder.run("./skelfora", "list", f"./{name}"), Gave(0, LISTING, ""), f"a log that is called {name}")
    for words in (["dark", "data/L.log"], ["", "data/L.log"], ["light", "full", "data/L.log"], ["data/L.log", "light"]):
        gave = folder.run("./skelfora", "list", *words)
        same((gave.status, gave.out, one_line(gave.err)), (2, b"", True), " ".join(words))


@test("a socket as standard input is read")
def reads_a_socket(folder):
    ours, theirs = socket.socketpair()
    with ours, theirs:
        ours.sendall(log_bytes(1, [0, 0]))
        ours.shutdown(socket.SHUT_WR)
        same(folder.run("./skelfora", "list", stdin=theirs), Gave(0, b"events 1 C 0 R 0 I 0 E 0 traces 1\nT 0 2 0 1\n", ""), "a socket")


@test("the sample is taken at a terminal and where standard input is closed or can't be read, and standard error says so")
def takes_the_sample(folder):
    ours, theirs = pty.openpty()
    try:
        at_terminal = folder.run("./skelfora", "list", stdin=theirs)
    finally:
        os.close(ours)
        os.close(theirs)
    closed = folder.shell("./skelfora list <&-")
    unreadable = folder.shell("./skelfora list 0>/dev/null")
    for gave in (at_terminal, closed, unreadable):
        same((gave.status, gave.out), (0, LISTING), "the sample")
        holds(one_line(gave.err) and "sample" in gave.err, f"no word of the sample: {gave.err!r}")
    empty = folder.run("./skelfora", "list")
    same((empty.status, empty.out), (1, b"refused 1\n"), "an empty standard input is no terminal")


@test("-h and --help say what there is, through a link from any folder too")
def helps(folder):
    for word in ("-h", "--help"):
        gave = folder.run("./skelfora", "list", word)
        same((gave.status, gave.err), (0, ""), word)
        holds(all(part in gave.out for part in (b"--names", b"LOG", b"exit status")), f"{word} leaves something out")
    os.symlink(os.path.join(ROOT, "skelfora"), folder.at("elsewhere"))
    os.makedirs(folder.at("deep"))
    same(folder.shell("cd deep && ../elsewhere list ../data/L.log"), Gave(0, LISTING, ""), "a link")
    os.symlink(os.path.join(ROOT, "list"), folder.at("lister"))
    same(folder.shell("cd deep && ../lister ../data/L.log"), Gave(0, LISTING, ""), "a link to ./list")


@test("a refused log: standard output as 01 has it, one sentence on standard error, exit status 1")
def refuses(folder):
    for number, data in REFUSED.items():
        gave = folder.run("./skelfora", "list", "-", data=data)
        same((gave.status, gave.out), (1, b"refused %d\n" % number), f"refusal {number}")
        holds(one_line(gave.err) and gave.err.startswith(f"list: {number}: "), f"refusal {number} says {gave.err!r}")
    gave = folder.run("./skelfora", "list", "-", data=REFUSED[3])
    same(gave.err, "list: 3: more than 128 activities, 1,024 calls, 512 steps in a call or 32,768 in all, or not the edition for its activities: 1 up to 64, 2 above\n", "the sentence of 3")


@test("output that can't be written gives an exit status other than 0")
def full_output(folder):
    full = folder.shell("./skelfora list data/L.log >/dev/full")
    same((full.status, one_line(full.err)), (3, True), "a full device")
    closed = folder.shell("./skelfora list data/L.log >&-")
    same((closed.status, one_line(closed.err)), (3, True), "a closed output")
    reader, writer = os.pipe()
    os.close(reader)
    gone = folder.run("./skelfora", "list", "data/L.log", stdout=writer)
    os.close(writer)
    holds(gone.status != 0, "a reader that has gone away")


@test("used wrongly: one line on standard error, nothing on standard output, exit status 2; what can't be read: 3")
def used_wrongly(folder):
    misused = [["a", "b"], ["--nosuch"], ["--names"]]
    unreadable = [["nosuch.log"], ["data"], ["--names", "nosuch", "data/L.log"]]
    for words in misused + unreadable:
        gave = folder.run("./skelfora", "list", *words)
        same((gave.status, gave.out), (2 if words in misused else 3, b""), " ".join(words))
        holds(one_line(gave.err), f"{words} says {gave.err!r}")
    gave = folder.run(sys.executable, "skelfora", "list", "data/L.log", env={**os.environ, "PATH": folder.at("nowhere")})
    same((gave.status, gave.out, one_line(gave.err), "rt" in gave.err), (3, b"", True, True), "no rt")


@test("./skelfora list --names: a sentence for each pair, grouped by step; too few names are one line; a refused log as before")
def in_words(folder):
    folder.put("L.names", "Request\nInspect\nAssign\n")
    light = IN_WORDS.replace("4 excludes", "3 excludes").replace("  Assign shuts Inspect out\n", "")
    for profile, wanted in (("full", IN_WORDS), ("light", light)):
        for words in ([profile, "--names", "L.names", "data/L.log"], ["--names", "L.names", profile, "data/L.log"]):
            same(folder.run("./skelfora", "list", *words), Gave(0, wanted.encode(), ""), " ".join(words))
    gave = folder.run("./skelfora", "list", "--names", "L.names", "data/L.log")
    same(gave, Gave(0, light.encode(), ""), "L in words, no profile named")
    folder.put("few.names", "Request\nInspect\n")
    gave = folder.run("./skelfora", "list", "--names", "few.names", "data/L.log")
    same(gave, Gave(3, b"", "list: few.names has 2 names, and the log has 3 activities\n"), "too few names")
    gave = folder.run("./skelfora", "list", "--names", "L.names", data=REFUSED[4])
    same((gave.status, gave.out), (1, b"refused 4\n"), "a refused log")


IN_WORDS = """\
3 steps, 2 calls; 2 conditions, 2 responses, 1 include, 4 excludes

Request
  after Request, Assign is owed
  Request lets Inspect in
  Request shuts itself out

Inspect
  Inspect waits for Request (while Request is in)
  after Inspect, Assign is owed
  Inspect shuts itself out

Assign
  Assign waits for Request (while Request is in)
  Assign shuts Inspect out
  Assign shuts itself out

call 0: 3 steps, done, may end
call 1: 2 steps, done, may end
"""
