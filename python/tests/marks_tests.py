"""./skelfora marks and ./skelfora nightly: counts worked out by hand from 01's G and 02's 9/12; labels as bytes and as text; what is refused; how they end."""
import os

from trial import ROOT, read, same, test

G = os.path.join(ROOT, "crates", "cases", "data", "sample.graph")


def log_of(a, calls):
    lengths = [len(call) for call in calls]
    entries = b"".join(sum(lengths[:k]).to_bytes(2, "little") + n.to_bytes(2, "little") for k, n in enumerate(lengths))
    return bytes([66, 76, 1, a]) + len(calls).to_bytes(2, "little") + entries + b"".join(map(bytes, calls))


# On G: yes, yes, done and not accepting, 10, yes, and an activity that G lacks, which is a no. Labels in order, not, in order, not, in order, in order.
CALLS = log_of(4, [[0, 1, 2], [0, 2], [0], [2], [], [3]])
LABELS = bytes([1, 0, 1, 0, 1, 1])
MARKS = b"TP 2\nFP 1\nFN 2\nTN 1\nprecision 2 3\nrecall 2 4\naccuracy 3 6\n"


@test("./skelfora marks: the four counts and the measures of G, not reduced, with labels as bytes and as text")
def marks_of_g(folder):
    folder.put("calls.log", CALLS)
    for k, labels in enumerate((LABELS, b"101011", b"1\n0\n1\n0\n1\n1\n", b"1 0 1\r\n0 1 1\r\n")):
        folder.put(f"{k}.labels", labels)
        gave = folder.run("./skelfora", "marks", G, "calls.log", f"{k}.labels")
        same((gave.status, gave.out, gave.err), (0, MARKS, ""), f"labels {labels!r}")


@test("./skelfora marks: labels spaced widely are read to the last, and a file too long for labels is refused in one line")
def marks_of_long_labels(folder):
    folder.put("calls.log", CALLS)
    folder.put("wide.labels", b"".join(b"%d" % label + 5000 * b" " for label in LABELS))
    folder.put("more.labels", b"101011" + 20000 * b" " + b"1")
    folder.put("endless.labels", 2**20 * b"\1" + b"\1")
    gave = folder.run("./skelfora", "marks", G, "calls.log", "wide.labels")
    same((gave.status, gave.out, gave.err), (0, MARKS, ""), "5,000 spaces after each")
    same(folder.run("./skelfora", "marks", G, "calls.log", "more.labels").out, b"refused 18\n", "a seventh label after 20,000 spaces")
    gave = folder.run("./skelfora", "marks", G, "calls.log", "endless.labels")
    same((gave.status, gave.out, gave.err.count("\n")), (3, b"", 1), "more bytes than labels can have")


@test("./skelfora marks --guesses: guesses in place of the verdicts, and none where there is nothing to divide by")
def marks_of_guesses(folder):
    folder.put("labels", LABELS)
    folder.put("guesses", "110010\n")
    gave = folder.run("./skelfora", "marks", "--guesses", "guesses", "labels")
    same((gave.status, gave.out, gave.err), (0, MARKS, ""), "the graph's own verdicts guessed")
    for guesses, labels, wanted in (
        ("000", "000", b"TP 0\nFP 0\nFN 0\nTN 3\nprecision none\nrecall none\naccuracy 3 3\n"),
        ("000", "101", b"TP 0\nFP 0\nFN 2\nTN 1\nprecision none\nrecall 0 2\naccuracy 1 3\n"),
        ("11", "00", b"TP 0\nFP 2\nFN 0\nTN 0\nprecision 0 2\nrecall none\naccuracy 0 2\n"),
        ("", "", b"TP 0\nFP 0\nFN 0\nTN 0\nprecision none\nrecall none\naccuracy none\n"),
    ):
        folder.put("guesses", guesses)
        folder.put("labels", labels)
        gave = folder.run("./skelfora", "marks", "--guesses", "guesses", "labels")
        same((gave.status, gave.out), (0, wanted), f"guesses {guesses} labels {labels}")


@test("./skelfora marks: the log's refusals, the graph's, 18, then 19, each with one line that says why, exit status 1")
def marks_refused(folder):
    folder.put("calls.log", CALLS)
    folder.put("short.log", CALLS[:-1])
    folder.put("short.graph", read("crates", "cases", "data", "sample.graph")[:-1])
    for name, data in (("labels", "101011"), ("few", "10101"), ("two", "101021"), ("byte", LABELS[:5] + b"\xff"), ("fewtwo", "20101")):
        folder.put(name, data)
    for graph, log, labels, number in (
        ("short.graph", "short.log", "few", 1),
        ("short.graph", "calls.log", "few", 1),
        (G, "short.log", "two", 1),
        (G, "calls.log", "few", 18),
        (G, "calls.log", "fewtwo", 18),
        (G, "calls.log", "two", 19),
        (G, "calls.log", "byte", 19),
    ):
        gave = folder.run("./skelfora", "marks", graph, log, labels)
        same((gave.status, gave.out, gave.err.count("\n")), (1, f"refused {number}\n".encode(), 1), f"{log} {labels}")
    folder.put("many", "1" * 1025)
    for guesses, labels, number in (("many", "many", 3), ("few", "labels", 18), ("two", "labels", 19), ("labels", "two", 19)):
        gave = folder.run("./skelfora", "marks", "--guesses", guesses, labels)
        same((gave.status, gave.out, gave.err.count("\n")), (1, f"refused {number}\n".encode(), 1), f"guesses {guesses} {labels}")


@test("./skelfora marks and ./skelfora nightly used wrongly: one line, exit status 2; a file that is not there: 3")
def marks_misused(folder):
    folder.put("labels", "1")
    for words in ([], ["a", "b"], ["a", "b", "c", "d"], ["--guesses", "labels"], ["--guesses", "labels", "labels", "labels"]):
        gave = folder.run("./skelfora", "marks", *words)
        same((gave.status, gave.out, gave.err.count("\n")), (2, b"", 1), f"./skelfora marks {' '.join(words)}")
    gave = folder.run("./skelfora", "marks", G, "none.log", "labels")
    same((gave.status, gave.out, gave.err.count("\n")), (3, b"", 1), "no log")
    gave = folder.run("./skelfora", "nightly")
    same((gave.status, gave.err.count("\n")), (2, 1), "./skelfora nightly")
    gave = folder.run("./skelfora", "nightly", "nowhere")
    same((gave.status, gave.err.count("\n")), (3, 1), "./skelfora nightly nowhere")


@test("./skelfora nightly: each log with labels is listed and marked, in the order of names; those without are named in one line")
def nightly(folder):
    os.makedirs(folder.at("calls"))
    sample = read("data", "L.log")
    for name, data in (("b.log", sample), ("b.labels", b"11"), ("a.log", sample), ("a.labels", b"10"), ("c.log", sample), ("d.log", b"no log")):
        folder.put(os.path.join("calls", name), data)
    listing = folder.run("./skelfora", "list", "full", "data/L.log").out
    one = b"TP 1\nFP 1\nFN 0\nTN 0\nprecision 1 2\nrecall 1 1\naccuracy 1 2\n"
    two = b"TP 2\nFP 0\nFN 0\nTN 0\nprecision 2 2\nrecall 2 2\naccuracy 2 2\n"
    gave = folder.run("./skelfora", "nightly", "calls")
    same((gave.status, gave.out), (0, b"a.log\n" + listing + one + b"b.log\n" + listing + two), "two logs")
    same(gave.err, "nightly: no labels beside c.log, d.log\n", "those without labels")
    folder.put(os.path.join("calls", "d.labels"), b"1")
    folder.put(os.path.join("calls", "c.labels"), b"111")
    gave = folder.run("./skelfora", "nightly", "calls")
    wanted = b"a.log\n" + listing + one + b"b.log\n" + listing + two + b"c.log\n" + listing + b"refused 18\nd.log\nrefused 2\n"
    same((gave.status, gave.out, gave.err.count("\n")), (1, wanted, 2), "labels that do not fit, and no log")


@test("./skelfora nightly prints what it printed when 9/12 had landed, byte for byte: each kind of log, of labels and of refusal (02, 11/12)")
def nightly_as_before(folder):
    gave = folder.run("./skelfora", "nightly", os.path.join(ROOT, "python", "tests", "nightly"))
    same((gave.status, gave.out), (1, read("python", "tests", "nightly.printed")), "what ./skelfora nightly printed before light became the listing's default")
    said = [line.split(": ")[1:3] for line in gave.err.splitlines()]
    same(said, [["cut.log", "1"], ["few.log", "18"], ["two.log", "19"], ["no labels beside no-labels.log"]], "what it said beside")
