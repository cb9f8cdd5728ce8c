#!/usr/bin/env python3
"""Writes data/, args and stdout of the program `cases`: python3 crates/cases/make.py

A case is three words: what is done, a file of data/, and a second file or `-`. What it must print was worked out by hand from 01
and 02 and stands beside it, with the reason where that is not plain; nothing here reads, mines or replays. `rt check cases` runs the
proved code on the files and compares.
"""
import os
import shutil

HERE = os.path.dirname(os.path.abspath(__file__))
GREATEST = 2**64 - 1

files = {}
words = []
lines = []


def case(kind, first, second, *expected):
    words.extend([kind, first, second])
    lines.extend(expected)


# ---- the two files, as 01 lays them out, and as 10/12 of 02 lays out those of edition 2


def two(n):
    return bytes([n % 256, n // 256])


def edition_for(a):
    return 1 if a <= 64 else 2


def log_file(a, traces, edition=None):
    contents, offset = b"", 0
    for trace in traces:
        contents += two(offset) + two(len(trace))
        offset += len(trace)
    return bytes([66, 76, edition or edition_for(a), a]) + two(len(traces)) + contents + b"".join(bytes(t) for t in traces)


def eight(members):
    return sum(1 << a for a in members).to_bytes(8, "little")


def sixteen(members):
    return sum(1 << a for a in members).to_bytes(16, "little")


def graph_file(a, events, executed, pending, included, *relations, edition=None):
    """The four relations: conditions, responses, includes, excludes, each a list of rows, key and members."""
    edition = edition or edition_for(a)
    in_bytes = eight if edition == 1 else sixteen
    contents, rows = b"", b""
    for relation in relations:
        contents += two(len(rows)) + two(len(relation))
        rows += b"".join(bytes([key]) + in_bytes(members) for key, members in relation)
    return bytes([66, 71, edition, a]) + b"".join(map(in_bytes, (events, executed, pending, included))) + contents + rows


def edited(file, *changes):
    """The file with bytes put over it, each at its place."""
    out = bytearray(file)
    for at, new in changes:
        out[at : at + len(new)] = new
    return bytes(out)


# ---- what a line says


def found(k, number, start, length):
    return f"; trace {k}: {number} start {start} length {length}"


def log_good(name, file, a, t, *known):
    """An accepted log: A, T, and number, start and length of its first and last trace. Trace T, and the greatest number: 11."""
    files[name] = file
    line = f"log {name}: 0 A {a} T {t}" + "".join(found(k, 0, s, n) for k, s, n in known)
    case("log", name, "-", line + found(t, 11, 0, 0) + found(GREATEST, 11, 0, 0))


def log_bad(name, file, number):
    """A refused log: nothing beside the number, and each trace is refused with it, before 11."""
    files[name] = file
    line = f"log {name}: {number} A 0 T 0"
    case("log", name, "-", line + found(0, number, 0, 0) + found(GREATEST, number, 0, 0))


def same(length, contents):
    return f"; written: 0 length {length} contents {contents} same yes"


def graph_good(name, file, a, events, enabled, length, contents):
    """An accepted file: A, the events, what is enabled at its marking, and the same file when it is written again."""
    files[name] = file
    case("graph", name, "-", f"graph {name}: 0" + said(a, events, enabled) + same(length, contents))


def graph_bad(name, file, number):
    files[name] = file
    case("graph", name, "-", f"graph {name}: {number}" + said(0, [], []))


def listed(word, members):
    return f" {word}" + "".join(f" {a}" for a in members)


def marked(executed, pending, included, enabled):
    return listed("executed", executed) + listed("pending", pending) + listed("included", included) + listed("enabled", enabled)


def blocked(answer):
    """The answer to a step: 10 is written with the activity that blocks, "10 by 0"; beside every other number stands 255."""
    return answer if isinstance(answer, str) else f"{answer} by 255"


def ended(answer, place, executed, pending, included, enabled, accepting):
    return f": {blocked(answer)} place {place}" + marked(executed, pending, included, enabled) + f" accepting {accepting}"


def said(a, events, enabled):
    return f" A {a}" + listed("events", events) + listed("enabled", enabled)


def replays(graph, log, a, *table):
    """Each trace with what its replay returns: number, place, executed, pending, included, enabled, accepting."""
    files[log] = log_file(a, [trace for trace, _ in table])
    case("replay", graph, log, *(f"replay {graph} {log} trace {k}" + ended(*end) for k, (_, end) in enumerate(table)))


# ---- logs (01, "Log", "Numbers given back", "Calls to try")

L = bytes([66, 76, 1, 3, 2, 0, 0, 0, 3, 0, 3, 0, 2, 0, 0, 1, 2, 0, 2])
log_good("sample.log", L, 3, 2, (0, 14, 3), (1, 17, 2))  # the bodies begin at 6 + 2 * 4 = 14

# 1: under 6 bytes; 6 are a log with no activity and no trace
EMPTY_LOG = bytes([66, 76, 1, 0, 0, 0])
log_bad("bytes-5.log", EMPTY_LOG[:5], 1)
log_good("bytes-6.log", EMPTY_LOG, 0, 0)

# 2: either letter, the edition
log_bad("letter-first.log", edited(L, (0, b"C")), 2)
log_bad("letter-second.log", edited(L, (1, b"G")), 2)
log_bad("edition-0.log", edited(L, (2, b"\x00")), 2)
log_bad("edition-3.log", edited(L, (2, b"\x03")), 2)

# 3: A and its edition: 1 up to 64, 2 from 65 to 128 (02, 10/12); no edition goes with 129
log_good("a-64.log", log_file(64, [[63]]), 64, 1, (0, 10, 1))
log_bad("a-65.log", log_file(65, [[63]], edition=1), 3)
log_good("a-65-wide.log", log_file(65, [[64]]), 65, 1, (0, 10, 1))
log_good("a-97-wide.log", log_file(97, [[96], [63, 64]]), 97, 2, (0, 14, 1), (1, 15, 2))
log_good("a-128-wide.log", log_file(128, [[127]]), 128, 1, (0, 10, 1))
for a, edition in ((97, 1), (128, 1), (129, 1), (255, 1), (0, 2), (3, 2), (64, 2), (129, 2), (255, 2)):
    log_bad(f"a-{a}-edition-{edition}.log", log_file(a, [[]], edition), 3)
# 5: the byte A itself, where it can be one
for a in (64, 65, 97, 128):
    log_bad(f"byte-{a}.log", log_file(a, [[a - 1], [a]]), 5)
log_bad("byte-255.log", log_file(128, [[255]]), 5)
# 3: T 1,024 and 1,025, lengths 512 and 513, totals 32,768 and 32,769
# the greatest log: 6 + 4 * 1,024 + 32,768 = 36,870 bytes; its last trace begins at 4,102 + 1,023 * 32 = 36,838
LAP = list(range(64))
MOST = [LAP[:32], LAP[32:]] * 512
log_good("total-32768-t-1024.log", log_file(64, MOST), 64, 1024, (0, 4102, 32), (1023, 36838, 32))
log_bad("total-32769.log", log_file(64, MOST[:-1] + [LAP[:33]]), 3)
# no larger in edition 2
WIDE_LAP = list(range(128))
WIDE_MOST = [WIDE_LAP[:32], WIDE_LAP[32:64], WIDE_LAP[64:96], WIDE_LAP[96:]] * 256
log_good("total-32768-wide.log", log_file(128, WIDE_MOST), 128, 1024, (0, 4102, 32), (1023, 36838, 32))
log_bad("total-32769-wide.log", log_file(128, WIDE_MOST[:-1] + [WIDE_LAP[:33]]), 3)
log_bad("t-1025.log", log_file(1, [[]] * 1025), 3)
log_good("length-512.log", log_file(1, [[0] * 512]), 1, 1, (0, 10, 512))
log_bad("length-513.log", log_file(1, [[0] * 513]), 3)

# A 0 with empty traces is accepted, with one event it is 5
log_good("a-0.log", log_file(0, [[], []]), 0, 2, (0, 14, 0), (1, 14, 0))
log_bad("a-0-event.log", log_file(0, [[0]]), 5)

# 1: the contents cut, one byte short; 4: one byte more, an offset too great, too small, not 0 at first; 5: a byte that is A
log_bad("contents-cut.log", L[:13], 1)
log_bad("end-short.log", L[:-1], 1)
log_bad("end-more.log", L + b"\x00", 4)
log_bad("offset-more.log", edited(L, (10, two(4))), 4)
log_bad("offset-less.log", edited(L, (10, two(2))), 4)
log_bad("offset-first.log", edited(L, (6, two(1))), 4)
log_bad("byte-is-a.log", edited(L, (18, b"\x03")), 5)

# two faults in one log: the order decides, and an entry is judged whole before the next
log_bad("letters-then-a.log", edited(L, (0, b"C"), (3, b"\x41")), 2)
log_bad("edition-then-a.log", edited(L, (2, b"\x03"), (3, b"\x81")), 2)
log_bad("match-then-contents.log", edited(EMPTY_LOG, (2, b"\x02"), (4, two(1))), 3)
log_bad("t-then-contents.log", edited(EMPTY_LOG, (4, two(1025))), 3)
log_bad("contents-then-length.log", edited(EMPTY_LOG, (4, two(2))) + two(0) + two(513), 1)
log_bad("length-then-offset.log", edited(L, (6, two(1)), (8, two(513))), 3)
log_bad("offset-then-length.log", edited(L, (6, two(1)), (12, two(513))), 4)
FULL = log_file(1, [[0] * 512] * 64 + [[0]])[: 6 + 4 * 65]
log_bad("total-then-offset.log", edited(FULL, (6 + 4 * 64, two(0))), 3)
log_bad("offset-then-end.log", edited(L, (10, two(4)))[:-1], 4)
log_bad("short-then-byte.log", edited(L, (14, b"\x03"))[:-1], 1)
log_bad("more-then-byte.log", edited(L, (14, b"\x03")) + b"\x00", 4)

# ---- graph files (01, "Graph", "Numbers given back")

# G, the graph of L as 01 lists it: 8 rows, so 52 + 72 = 124 bytes. The keys of the responses begin below the last of the conditions:
# they rise within a relation only.
G = graph_file(
    3, [0, 1, 2], [], [], [0, 1, 2],
    [(1, [0]), (2, [0])],
    [(0, [2]), (1, [2])],
    [(0, [1])],
    [(0, [0]), (1, [1]), (2, [1, 2])],
)  # fmt: skip
G_CONTENTS = "0 2 18 2 36 1 45 3"
graph_good("sample.graph", G, 3, [0, 1, 2], [0], 124, G_CONTENTS)

# the paper's graph a, b, c, d as 0, 1, 2, 3 (document 002, the example after Definition 3): 6 rows, 106 bytes; a is pending and b
# is not included, so its marking is no opening one, and 0 need not wait for it
PAPER = graph_file(
    4, [0, 1, 2, 3], [], [0], [0, 2, 3],
    [(0, [1]), (1, [0])],
    [(0, [1]), (1, [0])],
    [(2, [1])],
    [(3, [1, 3])],
)  # fmt: skip
graph_good("paper.graph", PAPER, 4, [0, 1, 2, 3], [0, 2, 3], 106, "0 2 18 2 36 1 45 1")

# 1: 51 bytes; 52 are a graph with no activity
NONE = "0 0 0 0 0 0 0 0"
EMPTY_GRAPH = graph_file(0, [], [], [], [], [], [], [], [])
graph_bad("bytes-51.graph", EMPTY_GRAPH[:51], 1)
graph_good("bytes-52.graph", EMPTY_GRAPH, 0, [], [], 52, NONE)

# any marking within the events is accepted: 2 executed, 0 and 2 pending, 0 included; 1 is no event
graph_good("marking.graph", graph_file(3, [0, 2], [2], [0, 2], [0], [], [], [], []), 3, [0, 2], [0], 52, NONE)

# 2: either letter, the edition
graph_bad("letter-first.graph", edited(G, (0, b"C")), 2)
graph_bad("letter-second.graph", edited(G, (1, b"L")), 2)
graph_bad("edition-0.graph", edited(G, (2, b"\x00")), 2)
graph_bad("edition-3.graph", edited(G, (2, b"\x03")), 2)

# 3: A 64 and 65, 64 rows and 65; the greatest file of edition 1 has 52 + 9 * 4 * 64 = 2,356 bytes, and 64 rows take 576
graph_good("a-64.graph", edited(G, (3, b"\x40")), 64, [0, 1, 2], [0], 124, G_CONTENTS)
graph_bad("a-65.graph", edited(G, (3, b"\x41")), 3)
ALL = range(64)
ROWS = [(a, ALL) for a in ALL]
MOST_ROWS = graph_file(64, ALL, ALL, ALL, ALL, ROWS, ROWS, ROWS, ROWS)
graph_good("rows-64.graph", MOST_ROWS, 64, ALL, ALL, 2356, "0 64 576 64 1152 64 1728 64")
graph_bad("rows-65.graph", graph_file(64, ALL, [], [], ALL, ROWS + [(64, [0])], [], [], []), 3)

# 5: an event that is A; executed, pending, included outside the events
graph_bad("event-is-a.graph", edited(G, (3, b"\x02")), 5)
graph_bad("executed-outside.graph", edited(G, (12, eight([3]))), 5)
graph_bad("pending-outside.graph", edited(G, (20, eight([3]))), 5)
graph_bad("included-outside.graph", edited(G, (28, eight([0, 1, 2, 3]))), 5)

# 4: offsets counted in rows, the first not 0, the last one too great, one byte more; 1: one byte short
graph_bad("offset-in-rows.graph", edited(G, (36, two(0)), (40, two(2)), (44, two(4)), (48, two(5))), 4)
graph_bad("offset-first.graph", edited(G, (36, two(9))), 4)
graph_bad("offset-last.graph", edited(G, (48, two(46))), 4)
graph_bad("end-more.graph", G + b"\x00", 4)
graph_bad("end-short.graph", G[:-1], 1)

# 5 and 6, row by row. G's first row is at 52, key 1, and its set at 53; the second at 61 and 62.
graph_bad("key-is-a.graph", edited(G, (52, b"\x03")), 5)
graph_bad("key-no-event.graph", edited(G, (3, b"\x04"), (61, b"\x03")), 5)
graph_bad("set-outside.graph", edited(G, (53, eight([0, 3]))), 5)
graph_bad("more-rows.graph", graph_file(1, [0], [], [], [0], [(0, [0]), (1, [0])], [], [], []), 5)
graph_bad("rows-falling.graph", edited(G, (52, b"\x02"), (61, b"\x01")), 6)
graph_bad("rows-same-key.graph", edited(G, (61, b"\x01")), 6)
graph_bad("row-empty.graph", edited(G, (53, eight([]))), 6)
graph_bad("empty-then-outside.graph", edited(G, (53, eight([])), (61, b"\x03")), 6)  # a row is judged whole before the next
graph_bad("outside-and-empty.graph", edited(G, (52, b"\x03"), (53, eight([]))), 5)  # in one row 5 comes first

# a pair may be in includes and excludes at once
BOTH = graph_file(2, [0, 1], [], [], [0, 1], [], [], [(0, [1])], [(0, [1])])
graph_good("both.graph", BOTH, 2, [0, 1], [0, 1], 70, "0 0 0 0 0 1 9 1")

# two faults in one file: the order decides
graph_bad("letters-then-a.graph", edited(G, (0, b"C"), (3, b"\x41")), 2)
graph_bad("edition-then-a.graph", edited(G, (2, b"\x03"), (3, b"\x81")), 2)
graph_bad("a-then-marking.graph", edited(G, (3, b"\x41"), (12, eight([3]))), 3)
graph_bad("marking-then-rows.graph", edited(G, (12, eight([3])), (38, two(65))), 5)
graph_bad("rows-then-offset.graph", edited(G, (36, two(9)), (38, two(65))), 3)
graph_bad("offset-then-rows.graph", edited(G, (36, two(9)), (42, two(65))), 4)
graph_bad("offset-then-end.graph", edited(G, (48, two(46)))[:-1], 4)
graph_bad("short-then-row.graph", edited(G, (52, b"\x03"))[:-1], 1)
graph_bad("more-then-row.graph", edited(G, (53, eight([]))) + b"\x00", 4)

# ---- graph files of edition 2 (02, 10/12): a head of 84 bytes, rows of 17

# 1 again when under 84 bytes, straight after 2: so 52 bytes are long enough for 2 and not for edition 2; A is tested after
WIDE_HEAD = graph_file(5, [], [], [], [], [], [], [], [], edition=2)
graph_bad("wide-5-bytes-51.graph", WIDE_HEAD[:51], 1)
graph_bad("wide-5-bytes-52.graph", WIDE_HEAD[:52], 1)
graph_bad("wide-5-bytes-83.graph", WIDE_HEAD[:83], 1)
graph_bad("wide-5-bytes-84.graph", WIDE_HEAD, 3)
graph_bad("wide-letters-then-short.graph", edited(WIDE_HEAD[:83], (0, b"C")), 2)
graph_bad("edition-3-bytes-83.graph", edited(WIDE_HEAD[:83], (2, b"\x03")), 2)
graph_bad("wide-short-then-a.graph", edited(WIDE_HEAD[:83], (3, b"\x81")), 1)
# a file of edition 1 is never too short at 52 bytes: its A is the fault
graph_bad("narrow-65-bytes-52.graph", edited(EMPTY_GRAPH, (3, b"\x41")), 3)

# 3: A and its edition
for a in (65, 97, 128):
    graph_good(f"a-{a}-wide.graph", graph_file(a, [a - 1], [], [], [a - 1], [], [], [], []), a, [a - 1], [a - 1], 84, NONE)
for a, edition in ((97, 1), (128, 1), (129, 1), (255, 1), (0, 2), (64, 2), (129, 2), (255, 2)):
    graph_bad(f"a-{a}-edition-{edition}.graph", graph_file(a, [], [], [], [], [], [], [], [], edition=edition), 3)

# 3: 128 rows and 129; the greatest file has 84 + 17 * 4 * 128 = 8,788 bytes, and 128 rows take 2,176
WIDE_ALL = range(128)
WIDE_ROWS = [(a, WIDE_ALL) for a in WIDE_ALL]
WIDEST = graph_file(128, *[WIDE_ALL] * 4, *[WIDE_ROWS] * 4)
graph_good("rows-128.graph", WIDEST, 128, WIDE_ALL, WIDE_ALL, 8788, "0 128 2176 128 4352 128 6528 128")
graph_bad("rows-129.graph", graph_file(128, WIDE_ALL, [], [], WIDE_ALL, WIDE_ROWS + [(128, [0])], [], [], []), 3)
graph_bad("rows-8789.graph", WIDEST + b"\x00", 4)
graph_bad("rows-8787.graph", WIDEST[:-1], 1)

# W is G with 64 for 1 and 96 for 2: 84 + 8 * 17 = 220 bytes, and the enabled activity is 0 there too
W = graph_file(
    97, [0, 64, 96], [], [], [0, 64, 96],
    [(64, [0]), (96, [0])],
    [(0, [96]), (64, [96])],
    [(0, [64])],
    [(0, [0]), (64, [64]), (96, [64, 96])],
)  # fmt: skip
W_CONTENTS = "0 2 34 2 68 1 85 3"
graph_good("wide.graph", W, 97, [0, 64, 96], [0], 220, W_CONTENTS)
graph_good("wide-a-128.graph", edited(W, (3, b"\x80")), 128, [0, 64, 96], [0], 220, W_CONTENTS)
graph_bad("wide-end-more.graph", W + b"\x00", 4)
graph_bad("wide-end-short.graph", W[:-1], 1)
# offsets count 17 a row; W's entries begin at 4 + 4 * 16 = 68
graph_bad("wide-offset-9-a-row.graph", edited(W, (72, two(18)), (76, two(36)), (80, two(45))), 4)

# 5: an event that is A; executed, pending, included outside the events, which here are 20, 36 and 52
graph_bad("wide-event-is-a.graph", edited(W, (3, b"\x60")), 5)
graph_bad("wide-event-127.graph", edited(W, (4, sixteen([0, 64, 96, 127]))), 5)
graph_bad("wide-executed-outside.graph", edited(W, (20, sixteen([65]))), 5)
graph_bad("wide-pending-outside.graph", edited(W, (36, sixteen([127]))), 5)
graph_bad("wide-included-outside.graph", edited(W, (52, sixteen([0, 63, 64, 96]))), 5)

# 5 and 6, row by row. W's first row is at 84, key 64, and its set at 85; the second at 101 and 102. A set with a member from 64 on alone is
# not empty
graph_bad("wide-key-is-a.graph", edited(W, (101, b"\x61")), 5)
graph_bad("wide-key-128.graph", edited(W, (101, b"\x80")), 5)
graph_bad("wide-set-outside.graph", edited(W, (85, sixteen([0, 97]))), 5)
graph_bad("wide-rows-falling.graph", edited(W, (84, b"\x60"), (101, b"\x40")), 6)
graph_bad("wide-row-empty.graph", edited(W, (85, sixteen([]))), 6)
graph_good("wide-high-row.graph", edited(W, (85, sixteen([96]))), 97, [0, 64, 96], [0], 220, W_CONTENTS)

# two faults in one file: the order decides
graph_bad("wide-a-then-event.graph", edited(W, (3, b"\x81"), (4, sixteen([127]))), 3)
graph_bad("wide-marking-then-rows.graph", edited(W, (20, sixteen([65])), (70, two(129))), 5)
graph_bad("wide-rows-then-offset.graph", edited(W, (68, two(17)), (70, two(129))), 3)
graph_bad("wide-offset-then-rows.graph", edited(W, (68, two(17)), (74, two(129))), 4)

# ---- a lent buffer: 124 bytes are enough for G, the rest of a larger one stays; 123 give 7, and no byte changes

for size, line in (
    (124, "0 length 124 file yes rest as it was yes"),
    (130, "0 length 124 file yes rest as it was yes"),
    (123, "7 length 0 file no rest as it was yes"),
):
    files[f"buffer-{size}"] = b"\xaa" * size
    case("write", "sample.graph", f"buffer-{size}", f"write sample.graph buffer-{size}: {line}")

# and 220 for W
for size, line in (
    (220, "0 length 220 file yes rest as it was yes"),
    (221, "0 length 220 file yes rest as it was yes"),
    (219, "7 length 0 file no rest as it was yes"),
):
    files[f"buffer-{size}"] = b"\xaa" * size
    case("write", "wide.graph", f"buffer-{size}", f"write wide.graph buffer-{size}: {line}")

# ---- mined graphs, as files: L gives G; a log with A 0 gives the empty graph; a refused log gives its number and nothing else

case("mine", "sample.log", "sample.graph", "mine sample.log sample.graph: 0" + said(3, [0, 1, 2], [0]) + same(124, G_CONTENTS))
case("mine", "a-0.log", "bytes-52.graph", "mine a-0.log bytes-52.graph: 0" + said(0, [], []) + same(52, NONE))
case("mine", "a-65.log", "bytes-52.graph", "mine a-65.log bytes-52.graph: 3" + said(0, [], []))

# 02, 10/12: L with 64 for 1 and 96 for 2 gives W, since the numbers keep their order; with A 65 for 97 it is refused. Its calls on W do what
# those of L do on G (01, "Calls to try"): 96 waits for 0, 0 excludes itself, 96 excludes 64, and 1 is no event
files["wide.log"] = log_file(97, [[0, 64, 96], [0, 96]])
case("mine", "wide.log", "wide.graph", "mine wide.log wide.graph: 0" + said(97, [0, 64, 96], [0]) + same(220, W_CONTENTS))
case("mine", "a-97-edition-1.log", "wide.graph", "mine a-97-edition-1.log wide.graph: 3" + said(0, [], []))
replays(
    "wide.graph", "wide-calls.log", 97,
    ([], (0, 0, [], [], [0, 64, 96], [0], "yes")),
    ([0], (0, 1, [0], [96], [64, 96], [64, 96], "no")),
    ([0, 64, 96], (0, 3, [0, 64, 96], [], [], [], "yes")),
    ([0, 96], (0, 2, [0, 96], [], [], [], "yes")),
    ([96], ("10 by 0", 0, [], [], [0, 64, 96], [0], "no")),
    ([0, 0], (9, 1, [0], [96], [64, 96], [64, 96], "no")),
    ([0, 96, 64], (9, 2, [0, 96], [], [], [], "no")),
    ([1], (8, 0, [], [], [0, 64, 96], [0], "no")),
)  # fmt: skip

# the calls ⟨0⟩, ⟨1⟩ and so on, one of each: as in 01's ⟨0⟩, ⟨1⟩ no two are together and none follows another, so by step 6 each excludes each, itself
# too; no s has a u before it, so step 7 takes nothing. 84 + 17 bytes an activity
for a in (65, 97, 128):
    each = list(range(a))
    files[f"apart-{a}.log"] = log_file(a, [[s] for s in each])
    files[f"apart-{a}.graph"] = graph_file(a, each, [], [], each, [], [], [], [(s, each) for s in each])
    names = f"apart-{a}.log apart-{a}.graph"
    case("mine", *names.split(), f"mine {names}: 0" + said(a, each, each) + same(84 + 17 * a, f"0 0 0 0 0 0 0 {a}"))
    replays(
        f"apart-{a}.graph", f"apart-{a}-calls.log", a,
        ([a - 1], (0, 1, [a - 1], [], [], [], "yes")),
        ([64, a - 1], (9, 1, [64], [], [], [], "no")),
    )  # fmt: skip

# 02, 7/12: 0 Draft, 1 Check, 2 Amend, 3 Seal; no call has Amend after Seal. 0 excludes 2, but 1, which stands between 0 and 3, includes it: so
# "3 excludes 2" is not redundant, and neither are 2 to 2 and 3 to 3, which 0 and 1 exclude and let in. Amend after Seal is refused with 9
files["story.log"] = log_file(4, [[0, 1, 2, 3], [0, 1, 3]])
files["story.graph"] = graph_file(
    4, [0, 1, 2, 3], [], [], [0, 1, 2, 3],
    [(1, [0]), (2, [1]), (3, [1])], [(0, [1]), (1, [3]), (2, [3])], [(0, [1]), (1, [2, 3]), (2, [3])],
    [(0, [0, 2, 3]), (1, [1]), (2, [2]), (3, [2, 3])],
)  # fmt: skip
case("mine", "story.log", "story.graph", "mine story.log story.graph: 0" + said(4, [0, 1, 2, 3], [0]) + same(169, "0 3 27 3 54 3 81 4"))
replays(
    "story.graph", "story-astray.log", 4,
    ([0, 1, 3], (0, 3, [0, 1, 3], [], [], [], "yes")),
    ([0, 1, 3, 2], (9, 3, [0, 1, 3], [], [], [], "no")),
)  # fmt: skip

# ---- replay: the paper's runs on a, b, c, d. After c, d, c the conditions between a and b bar both, and d has excluded itself.

LOCKED = ([2, 3], [0], [0, 1, 2], [2], "no")
replays(
    "paper.graph", "paper.log", 4,
    ([], (0, 0, [], [0], [0, 2, 3], [0, 2, 3], "no")),
    ([0], (0, 1, [0], [1], [0, 2, 3], [0, 2, 3], "yes")),
    ([0, 2, 1, 3, 0], (0, 5, [0, 1, 2, 3], [1], [0, 2], [0, 2], "yes")),
    ([2, 3, 2], (0, 3, *LOCKED)),
    ([2, 3, 2, 0], ("10 by 1", 3, *LOCKED)),
    ([2, 3, 2, 1], ("10 by 0", 3, *LOCKED)),
    ([2, 3, 2, 3], (9, 3, *LOCKED)),
)  # fmt: skip

# a trace handed to replay: 512 events, 513, and an activity that is no event, of any number up to 255
files["one.graph"] = graph_file(1, [0], [], [], [0], [], [], [], [])
for name, trace, end in (
    ("trace-512", [0] * 512, (0, 512, [0], [], [0], [0], "yes")),
    ("trace-513", [0] * 513, (3, 0, [], [], [], [], "no")),
    ("trace-1", [0, 1], (8, 1, [0], [], [0], [0], "no")),
    ("trace-255", [0, 255], (8, 1, [0], [], [0], [0], "no")),
):
    files[name] = bytes(trace)
    case("trace", "one.graph", name, f"trace one.graph {name}" + ended(*end))

# ---- the log reader put together by hand: the number it remembers, what it gives, the number it remembers then


def asked(remembered, number, start, length, then):
    return f"; next {remembered}: {number} start {start} length {length} then {then}"


def next_good(name, t, *known):
    """An accepted log: the first trace and the last. At T, and at the greatest number, 11, and the number stays."""
    line = f"next {name}: T {t}" + "".join(asked(k, 0, start, length, k + 1) for k, start, length in known)
    case("next", name, "-", line + "".join(asked(k, 11, 0, 0, k) for k in (t, GREATEST)))


def next_bad(name, number):
    """A refused log: its number comes before 11, and the number remembered stays too."""
    case("next", name, "-", f"next {name}: T 0" + "".join(asked(k, number, 0, 0, k) for k in (0, GREATEST)))


next_good("sample.log", 2, (0, 14, 3), (1, 17, 2))
next_good("length-512.log", 1, (0, 10, 512))
next_good("a-97-wide.log", 2, (0, 14, 1), (1, 15, 2))
next_good("bytes-6.log", 0)
next_good("total-32768-t-1024.log", 1024, (0, 4102, 32), (1023, 36838, 32))
for name, number in (("bytes-5.log", 1), ("letter-first.log", 2), ("a-65.log", 3), ("a-64-edition-2.log", 3), ("offset-more.log", 4), ("byte-is-a.log", 5)):
    next_bad(name, number)

# ---- one step at a marking that is handed over: accepting, enabled, execute


def one_step(accepting, answer, marking):
    """The marking handed over is accepting or not, with the number where it or the graph is refused. Enabled and the step have
    the same number and blocker; then the marking that the step leaves."""
    judged = answer if answer in (3, 5, 16) else 0
    return f": accepting {judged} {accepting}; enabled {blocked(answer)}; step {blocked(answer)}" + marked(*marking)


def step(graph, name, marking, accepting, activity, answer, after=None):
    """Where the step is refused the marking is as it was. Its sets have the form of the graph's."""
    in_bytes = eight if files[graph][2] == 1 else sixteen
    files[name] = b"".join(map(in_bytes, marking)) + bytes([activity])
    case("step", graph, name, f"step {graph} {name}" + one_step(accepting, answer, after or marking))


# on G, at its opening marking: 0 is done, and lets 1 in again, excludes itself, asks for 2; 1 and 2 wait for 0; the rest are no events
OPEN = ([], [], [0, 1, 2], [0])
step("sample.graph", "open-0.step", OPEN, "yes", 0, 0, ([0], [2], [1, 2], [1, 2]))
step("sample.graph", "open-1.step", OPEN, "yes", 1, "10 by 0")
step("sample.graph", "open-2.step", OPEN, "yes", 2, "10 by 0")
step("sample.graph", "open-3.step", OPEN, "yes", 3, 8)
step("sample.graph", "open-64.step", OPEN, "yes", 64, 8)
step("sample.graph", "open-255.step", OPEN, "yes", 255, 8)
# after 0: 0 is out, 2 is pending and included; 2 is done, excludes 1 and itself, and is pending no more
BEGUN = ([0], [2], [1, 2], [1, 2])
step("sample.graph", "begun-0.step", BEGUN, "no", 0, 9)
step("sample.graph", "begun-2.step", BEGUN, "no", 2, 0, ([0, 2], [], [], []))
# a condition's source that is not included bars nothing; what is pending and not included leaves a marking accepting
step("sample.graph", "source-out.step", ([], [], [1], [1]), "yes", 1, 0, ([1], [2], [], []))
step("sample.graph", "pending-out.step", ([0], [2], [1], [1]), "yes", 2, 9)
# a marking outside the events: 5, before 8, and before 16, which the last two would get
for name, marking in (
    ("executed-out.step", ([3], [], [0, 1, 2], [0])),
    ("pending-3.step", ([], [3], [0, 1, 2], [0])),
    ("included-3.step", ([], [], [0, 1, 2, 3], [])),
    ("included-63.step", ([], [], [63], [63])),
):
    step("sample.graph", name, marking, "no", 255, 5)

# 02, 6/12: a false set is not believed, and nothing happens. At the opening marking 0 alone is enabled; an enabled set that leaves the
# events is a false one, not an outside one; 16 comes before 8, 9 and 10
for name, enabled, activity in (
    ("none-enabled.step", [], 0),
    ("another-enabled.step", [1], 1),
    ("one-more-enabled.step", [0, 2], 0),
    ("no-event-enabled.step", [0, 3], 0),
    ("63-enabled.step", [0, 63], 255),
    ("all-enabled.step", range(64), 2),
):
    step("sample.graph", name, (*OPEN[:3], enabled), "no", activity, 16)
# after 0: what it shut out is kept, what it freed is not
step("sample.graph", "kept-0.step", (*BEGUN[:3], [0, 1, 2]), "no", 0, 16)
step("sample.graph", "freed-none.step", (*BEGUN[:3], [1]), "no", 1, 16)

# the same on W: 127 and 128 are no events, 64 and 96 wait for 0, 127 in a marking is outside, and in its enabled set false
WIDE_OPEN = ([], [], [0, 64, 96], [0])
step("wide.graph", "wide-open-0.step", WIDE_OPEN, "yes", 0, 0, ([0], [96], [64, 96], [64, 96]))
step("wide.graph", "wide-open-96.step", WIDE_OPEN, "yes", 96, "10 by 0")
step("wide.graph", "wide-begun-0.step", ([0], [96], [64, 96], [64, 96]), "no", 0, 9)
for activity in (63, 127, 128, 192, 255):
    step("wide.graph", f"wide-open-{activity}.step", WIDE_OPEN, "yes", activity, 8)
step("wide.graph", "wide-executed-127.step", ([127], *WIDE_OPEN[1:]), "no", 0, 5)
step("wide.graph", "wide-included-65.step", ([], [], [0, 64, 65, 96], [0]), "no", 0, 5)
step("wide.graph", "wide-127-enabled.step", (*WIDE_OPEN[:3], [0, 127]), "no", 0, 16)
step("wide.graph", "wide-96-enabled.step", (*WIDE_OPEN[:3], [0, 96]), "no", 96, 16)

# 9 comes before 10: in the paper's graph 1 is not included, and its source 0 is included and not executed
step("paper.graph", "paper-1.step", ([], [0], [0, 2, 3], [0, 2, 3]), "no", 1, 9)

# 02, 2/12: 3 waits for 0, 2 and 4. The smallest of them that is included and not executed blocks; executed and included in turn
files["blocked.graph"] = graph_file(5, range(5), [], [], range(5), [(3, [0, 2, 4])], [], [], [])
step("blocked.graph", "by-0.step", ([], [], range(5), [0, 1, 2, 4]), "yes", 3, "10 by 0")
step("blocked.graph", "0-executed.step", ([0], [], range(5), [0, 1, 2, 4]), "yes", 3, "10 by 2")
step("blocked.graph", "0-excluded.step", ([], [], [1, 2, 3, 4], [1, 2, 4]), "yes", 3, "10 by 2")
step("blocked.graph", "4-left.step", ([0], [], [0, 1, 3, 4], [0, 1, 4]), "yes", 3, "10 by 4")
REST = ([], [0, 1, 2, 3], [0, 1, 2, 3])
step("blocked.graph", "none-left.step", ([0, 2], *REST), "yes", 3, 0, ([0, 2, 3], *REST))

# the paper's Table 3: event 4 has response 2, include 2, exclude 7
TABLE_3 = ([0], [1, 4], [1, 4, 7], [1, 4, 7])
files["table-3.graph"] = graph_file(8, range(8), *TABLE_3[:3], [], [(4, [2])], [(4, [2])], [(4, [7])])
step("table-3.graph", "table-3.step", TABLE_3, "no", 4, 0, ([0, 4], [1, 2], [1, 2, 4], [1, 2, 4]))

# a response to itself stays pending; an include wins over an exclude
files["self.graph"] = graph_file(2, [0, 1], [], [], [0, 1], [], [(0, [0])], [(0, [0])], [(0, [0, 1])])
step("self.graph", "self.step", ([], [0], [0, 1], [0, 1]), "no", 0, 0, ([0], [0], [0], [0]))

# ---- a graph as a value, put together by hand: at its opening marking the step of its row's key; then its write into a buffer of
# `size` bytes, which are 170 each. Whether the buffer then holds the graph file named, and the rest of it what it held.


FREE = ([], [], [0, 1, 2], [0, 1, 2])  # no event waits
WAITED = ([], [], [0, 1, 2], [0, 2])  # 1 waits for 0


def value(file, name, size, stepped, written, a=3, events=(0, 1, 2), opening=WAITED, row=(0, 1, [0])):
    """The row: relation, key and members. `stepped`: accepting, number, the marking then; `written`: number, length."""
    relation, key, members = row
    name += ".value"
    files[name] = bytes([size, a, relation, key]) + b"".join(map(sixteen, (members, events, *opening)))
    number, length = written
    holds = "no" if number else "yes"
    line = f"value {file} {name}" + one_step(*stepped)
    case("value", file, name, line + f"; written: {number} length {length} file {holds} rest as it was yes")


def value_bad(name, number, size=61, **changes):
    """Refused with 3, 5 or 16 by all four: the marking is as it was, and so is every byte of the buffer."""
    value("row-c.graph", name, size, ("no", number, changes.get("opening", WAITED)), (number, 0), **changes)


# one row in each relation, from 1 to 0: 52 + 9 bytes
ROW = [(1, [0])]
files["row-c.graph"] = graph_file(3, [0, 1, 2], *OPEN[:3], ROW, [], [], [])
files["row-r.graph"] = graph_file(3, [0, 1, 2], *OPEN[:3], [], ROW, [], [])
files["row-i.graph"] = graph_file(3, [0, 1, 2], [], [], [1, 2], [], [], ROW, [])
files["row-e.graph"] = graph_file(3, [0, 1, 2], *OPEN[:3], [], [], [], ROW)
WAITS = ("yes", "10 by 0", WAITED)
value("row-c.graph", "row-c", 255, WAITS, (0, 61))
value("row-r.graph", "row-r", 61, ("yes", 0, ([1], [0], *FREE[2:])), (0, 61), row=(1, 1, [0]), opening=FREE)
value("row-i.graph", "row-i", 62, ("yes", 0, ([1], *FREE[1:])), (0, 61), row=(2, 1, [0]), opening=([], [], [1, 2], [1, 2]))
value("row-e.graph", "row-e", 61, ("yes", 0, ([1], [], [1, 2], [1, 2])), (0, 61), row=(3, 1, [0]), opening=FREE)

# 7, and no byte changes
value("row-c.graph", "size-60", 60, WAITS, (7, 0))
value("row-c.graph", "size-0", 0, WAITS, (7, 0))

# A 64, 65, 97, 128 with their last activity, in files of 52 + 9 and of 84 + 17 bytes, and one byte less; A 129, and the greatest byte
LAST = {"events": [63], "opening": ([], [], [63], [63]), "row": (3, 63, [63])}
for a, size in ((64, 61), (65, 101), (97, 101), (128, 101)):
    last = [a - 1]
    files[f"a-{a}-row.graph"] = graph_file(a, last, [], [], last, [], [], [], [(a - 1, last)])
    whole = {"a": a, "events": last, "opening": ([], [], last, last), "row": (3, a - 1, last)}
    gone = ("yes", 0, (last, [], [], []))
    value(f"a-{a}-row.graph", f"a-{a}", size, gone, (0, size), **whole)
    value(f"a-{a}-row.graph", f"a-{a}-less", size - 1, gone, (7, 0), **whole)
value_bad("a-129", 3, a=129)
value_bad("a-255", 3, a=255)

# 5: an event that is A; the opening marking outside the events; a row at a number that is no event; a row's set outside the events
value_bad("event-is-a", 5, a=2)
value_bad("event-63", 5, a=63, **LAST)
value_bad("event-64", 5, a=64, events=[0, 1, 2, 64])
value_bad("event-127", 5, a=127, events=[0, 1, 2, 127])
value_bad("executed-127", 5, opening=([127], *WAITED[1:]))
value_bad("executed-outside", 5, opening=([3], *WAITED[1:]))
value_bad("pending-outside", 5, opening=([], [3], *WAITED[2:]))
value_bad("included-outside", 5, opening=([], [], [0, 1, 2, 3], [0, 2]))
for relation in range(4):
    value_bad(f"key-no-event-{relation}", 5, row=(relation, 3, [0]))
    value_bad(f"set-outside-{relation}", 5, row=(relation, 1, [0, 3]))
value_bad("key-63", 5, a=64, row=(0, 63, [0]))
value_bad("key-127", 5, a=128, row=(0, 127, [0]))
value_bad("set-127", 5, row=(0, 1, [0, 127]))

# 16: the opening marking's set is false, with a member too few, one that waits, one that is no event, one that is no activity of A
value_bad("none-enabled", 16, opening=(*WAITED[:3], []))
value_bad("one-enabled-less", 16, opening=(*WAITED[:3], [0]))
value_bad("waiting-enabled", 16, opening=FREE)
value_bad("no-event-enabled", 16, a=64, opening=(*WAITED[:3], [0, 2, 3]))
value_bad("63-enabled", 16, opening=(*WAITED[:3], [0, 2, 63]))
value_bad("127-enabled", 16, opening=(*WAITED[:3], [0, 2, 127]))
value_bad("enabled-of-no-row", 16, row=(3, 1, [0]))

# an empty row is no fault anywhere, and no row of the file: at 3, which is no event, and where there is no activity at all
files["no-row.graph"] = graph_file(3, [0, 1, 2], *OPEN[:3], [], [], [], [])
value("no-row.graph", "empty-at-3", 52, ("yes", 8, FREE), (0, 52), opening=FREE, row=(0, 3, []))
NOTHING = ([], [], [], [])
value("bytes-52.graph", "empty", 52, ("yes", 8, NOTHING), (0, 52), a=0, events=[], opening=NOTHING, row=(0, 0, []))

# two faults in one value: 3, then 5, then 16, then 7
value_bad("a-then-event", 3, a=129, opening=([3], *WAITED[1:]))
value_bad("a-then-buffer", 3, size=60, a=129)
value_bad("event-then-buffer", 5, size=60, a=2)
value_bad("a-then-false", 3, a=129, opening=FREE)
value_bad("event-then-false", 5, opening=([3], *FREE[1:]))
value_bad("row-then-false", 5, opening=FREE, row=(2, 1, [0, 3]))
value_bad("false-then-buffer", 16, size=60, opening=FREE)

# ---- docs/CLASSROOM.md

# 1: 0 Request, 1 Inspect, 2 Assign; the graph is G
replays(
    "sample.graph", "class-route.log", 3,
    ([], (0, 0, [], [], [0, 1, 2], [0], "yes")),
    ([0], (0, 1, [0], [2], [1, 2], [1, 2], "no")),
    ([0, 2], (0, 2, [0, 2], [], [], [], "yes")),
    ([0, 1], (0, 2, [0, 1], [2], [2], [2], "no")),
    ([0, 1, 2], (0, 3, [0, 1, 2], [], [], [], "yes")),
    ([1], ("10 by 0", 0, [], [], [0, 1, 2], [0], "no")),
    ([0, 2, 1], (9, 2, [0, 2], [], [], [], "no")),
)  # fmt: skip

# 2: 0 Waive, 1 Survey, 2 Assign; condition 1 to 2, 0 excludes 1
files["class-waive.graph"] = graph_file(3, [0, 1, 2], [], [], [0, 1, 2], [(2, [1])], [], [], [(0, [1])])
replays(
    "class-waive.graph", "class-waive.log", 3,
    ([2], ("10 by 1", 0, [], [], [0, 1, 2], [0, 1], "no")),
    ([1, 2], (0, 2, [1, 2], [], [0, 1, 2], [0, 1, 2], "yes")),
    ([0], (0, 1, [0], [], [0, 2], [0, 2], "yes")),
    ([0, 2], (0, 2, [0, 2], [], [0, 2], [0, 2], "yes")),
    ([0, 1], (9, 1, [0], [], [0, 2], [0, 2], "no")),
)  # fmt: skip

# 3: 0 Book pilot, 1 Pilot report, 2 Cancel pilot; response 0 to 1, 0 includes 1, 2 excludes 1
files["class-pending.graph"] = graph_file(3, [0, 1, 2], [], [], [0, 1, 2], [], [(0, [1])], [(0, [1])], [(2, [1])])
replays(
    "class-pending.graph", "class-pending.log", 3,
    ([0], (0, 1, [0], [1], [0, 1, 2], [0, 1, 2], "no")),
    ([0, 1], (0, 2, [0, 1], [], [0, 1, 2], [0, 1, 2], "yes")),
    ([0, 2], (0, 2, [0, 2], [1], [0, 2], [0, 2], "yes")),
    ([0, 2, 1], (9, 2, [0, 2], [1], [0, 2], [0, 2], "no")),
    ([0, 2, 0], (0, 3, [0, 2], [1], [0, 1, 2], [0, 1, 2], "no")),
)  # fmt: skip

# 4: 0 Waive, 1 Survey, 2 Assign, 3 Damage; condition 1 to 2, 0 excludes 1, 3 includes 1
files["class-again.graph"] = graph_file(4, [0, 1, 2, 3], [], [], [0, 1, 2, 3], [(2, [1])], [], [(3, [1])], [(0, [1])])
replays(
    "class-again.graph", "class-again.log", 4,
    ([0, 2], (0, 2, [0, 2], [], [0, 2, 3], [0, 2, 3], "yes")),
    ([0, 3], (0, 2, [0, 3], [], [0, 1, 2, 3], [0, 1, 3], "yes")),
    ([0, 3, 2], ("10 by 1", 2, [0, 3], [], [0, 1, 2, 3], [0, 1, 3], "no")),
    ([0, 3, 1], (0, 3, [0, 1, 3], [], [0, 1, 2, 3], [0, 1, 2, 3], "yes")),
    ([0, 3, 1, 2], (0, 4, [0, 1, 2, 3], [], [0, 1, 2, 3], [0, 1, 2, 3], "yes")),
    ([3, 0, 2], (0, 3, [0, 2, 3], [], [0, 2, 3], [0, 2, 3], "yes")),
)  # fmt: skip


def main():
    data = os.path.join(HERE, "data")
    shutil.rmtree(data, ignore_errors=True)
    os.mkdir(data)
    for name, content in files.items():
        with open(os.path.join(data, name), "wb") as out:
            out.write(content)
    for name, rows in (("args", words), ("stdout", lines)):
        with open(os.path.join(HERE, name), "w", encoding="ascii") as out:
            out.write("".join(row + "\n" for row in rows))


main()
