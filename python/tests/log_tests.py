"""./skelfora log: each form of a file of calls, each thing that can be wrong with one, and the way back to names."""
import gzip
import os
import re

from trial import holds, log_bytes, same, test

# Two calls whose rows stand between one another, and the log that they are, worked out by hand.
TABLE = "call,step\nV1,Request\nV2,Request\nV1,Übernahme\nV2,Seal\nV1,Seal\n"
LOG = bytes([66, 76, 1, 3, 2, 0, 0, 0, 3, 0, 3, 0, 2, 0, 0, 1, 2, 0, 2])
NAMES = "Request\nÜbernahme\nSeal\n".encode()

# The same calls in other forms: file, words beside it.
FORMS = {
    "semicolons": (TABLE.replace(",", ";"), []),
    "tabs": (TABLE.replace(",", "\t"), []),
    "a BOM": (b"\xef\xbb\xbf" + TABLE.encode(), []),
    "CRLF": (TABLE.replace("\n", "\r\n"), []),
    "no line end at the last row": (TABLE[:-1], []),
    "empty rows": (TABLE.replace("\nV2", "\n\n  \n,\nV2"), []),
    "spaces around": (TABLE.replace(",", " , "), []),
    "quotes": (TABLE.replace("Request", '"Request"'), []),
    "an accent typed apart": (TABLE.replace("Ü", "U\u0308"), []),
    "no heading": (TABLE.partition("\n")[2], []),
    "no heading, as a table": (TABLE.partition("\n")[2], ["--table"]),
    "other columns": ("time,step,note,vessel\n1,Request,,V1\n2,Request,,V2\n3,Übernahme,x,V1\n4,Seal,,V2\n5,Seal,,V1\n", []),
    "headings as tools export them": (TABLE.replace("call,step", "case:concept:name,concept:name"), []),
    "columns that are named": (TABLE.replace("call,step", "Schiff,Schritt"), ["--call", "Schiff", "--step", "schritt"]),
    "a call a line": ("Request,Übernahme,Seal\nRequest,Seal\n", []),
    "a call a line, said so": ("Request;Übernahme;Seal\nRequest;Seal\n", ["--lines"]),
    "a call a line, with a heading": ("steps\nRequest\tÜbernahme\tSeal\nRequest\tSeal\t\n", []),
    "a call a line, with its name": ("vessel,steps\nV1,Request,Übernahme,Seal\nV2,Request,Seal,\n", []),
    "gzip": (gzip.compress(TABLE.encode()), []),
}

XES = """\
<?xml version="1.0" encoding="UTF-8"?>
<log xmlns="http://www.xes-standard.org/"><global scope="event"><string key="concept:name" value="none"/></global>
<trace><string key="concept:name" value="V1"/>
<event><string key="concept:name" value="Request"/><list key="x"><string key="concept:name" value="inner"/></list></event>
<event><string key="concept:name" value="Übernahme"/><string key="lifecycle:transition" value="start"/></event>
<event><string key="concept:name" value="Übernahme"/><string key="lifecycle:transition" value="COMPLETE"/></event>
<event><string key="concept:name" value="Seal"/></event></trace>
<trace><event><string key="concept:name" value="Request"/></event>
<event><string key="concept:name" value="Seal"/></event></trace></log>
"""
FORMS["XES"] = (XES, [])
FORMS["XES, gzipped"] = (gzip.compress(XES.encode()), [])


def rows(count, step=str):
    return "call,step\n" + "".join(f"V{k},{step(k)}\n" for k in range(count))


# 64 calls of 512 steps.
MANY = "steps\n" + ("a," * 511 + "a\n") * 64

# What is wrong with a file, and what is said of it: file, words beside it, end of the line.
WRONG = {
    "no step": ("call,step\n" + "V1,Request\n" * 15 + "V1,\n", [], "line 17: no step"),
    "no step and no separator": ("V1,Request\nV1\n", [], "line 2: no step"),
    "no call": ("call,step\n,Request\n", [], "line 2: no call"),
    "a step left out in a line": ("steps\na,,b\n", [], "line 2: no step"),
    "more cells than columns": ("call,step\nV1,a,b\n", [], "line 2: 3 cells in a table of 2 columns (if each line is a call, say --lines)"),
    "a line of steps in a table": ("a,b\na,b,c\n", [], "line 2: 3 cells in a table of 2 columns (if each line is a call, say --lines)"),
    "no column for the step": ("vessel,what\nV1,a\n", [], "name it by --step (the columns are: vessel, what)"),
    "quotes that don't close": ('call,step\nV1,a\nV1,"b\nV2,c\n', [], "(unexpected end of data)"),
    "a line break in a name": ('call,step\nV1,"a\nb"\n', [], "line 2: a line break or another control character in 'a\\nb'"),
    "not UTF-8": (b"call,step\nV1,a\nV1,\xdcber\n", [], "line 3: not UTF-8"),
    "UTF-16": ("call,step\nV1,a\n".encode("utf-16"), [], "line 1: not UTF-8"),
    "an empty file": ("", [], "nothing in it: no call"),
    "empty lines alone": ("\n \r\n\n", [], "nothing in it: no call"),
    "129 names": (rows(129), [], "129 names, 128 are the most"),
    "1,025 calls": (rows(1025, lambda k: "a"), [], "1,025 calls, 1,024 are the most (--once writes each different call once)"),
    "513 steps": ("call,step\nV0,a\n" + "V1,a\n" * 513, [], "line 3: the call that begins here has 513 steps, 512 are the most"),
    "32,769 steps": (MANY + "a\n", [], "32,769 steps, 32,768 are the most (--once writes each different call once)"),
    "XML that is no XES": ("<html></html>", [], "line 1: no XES: the first element is 'html', not 'log'"),
    "XES that is cut off": (XES[:400], [], "line 5: unclosed token"),
    "an event without a name": ("<log><trace>\n<event/></trace></log>", [], "line 2: no step (an event without concept:name)"),
    "an event outside a trace": ("<log>\n<event/></log>", [], "line 2: an event outside any trace"),
    "a document type": ("<!DOCTYPE log []><log/>", [], "line 1: a document type is not taken"),
    "gzip that is cut off": (gzip.compress(TABLE.encode())[:30], [], "Compressed file ended before the end-of-stream marker was reached"),
}


@test("./skelfora log: CSV with , ; tab, BOM, CRLF, quotes, umlauts, headings or none, a call a line, and XES give the same log and names")
def forms(folder):
    same(LOG, log_bytes(3, [0, 1, 2], [0, 2]), "the log by hand")
    for form, (text, words) in {"a table": (TABLE, []), **FORMS}.items():
        folder.put("calls", text)
        gave = folder.run("./skelfora", "log", *words, "calls", "out.log")
        same((gave.status, gave.out, folder.get("out.log"), folder.get("out.names")), (0, b"2 calls, 5 steps, 3 names\n", LOG, NAMES), form)
        os.unlink(folder.at("out.names"))
    gave = folder.run("./skelfora", "log", "-", "piped.log", data=TABLE.encode())
    same((gave.status, folder.get("piped.log")), (0, LOG), "standard input")


@test("./skelfora log: a file that is wrong gets one line that names the place, and OUT is left as it was")
def wrong(folder):
    for what, (text, words, end) in WRONG.items():
        folder.put("calls", text)
        for before in ({}, {"out.log": LOG, "out.names": b"0\n1\n2\n"}):
            for name, data in before.items():
                folder.put(name, data)
            gave = folder.run("./skelfora", "log", *words, "calls", "out.log")
            holds((gave.status, gave.out) == (3, b"") and gave.err.endswith(end + "\n") and gave.err.count("\n") == 1, f"{what}: {gave}")
            same({**folder.files(), "calls": None}, {**before, "calls": None}, f"{what}: the folder afterwards")
            for name in before:
                os.unlink(folder.at(name))


@test("./skelfora log: 64, 65 and 128 names, 1,024 calls, 512 steps in a call and 32,768 in all are written, and the proved program accepts them")
def borders(folder):
    folder.put("most.csv", "steps\n" + ("a," * 511 + "a\n") * 63 + ("a," * 31 + "a\n") + ("a," * 31 + "a\n") * 15 + '""\n' * 945)
    for count, edition in ((64, 1), (65, 2), (128, 2)):
        folder.put("names.csv", rows(count))
        gave = folder.run("./skelfora", "log", "names.csv", f"names-{count}.log")
        same(gave.out, f"{count} calls, {count} steps, {count} names\n".encode(), f"{count} names")
        same(folder.get(f"names-{count}.log")[:4], bytes([66, 76, edition, count]), f"the edition for {count}")
    same(folder.run("./skelfora", "log", "most.csv", "most.log").out, b"1,024 calls, 32,768 steps, 1 name\n", "the most of all")
    for log, first in (("names-64.log", b"events 64 "), ("names-65.log", b"events 65 "), ("names-128.log", b"events 128 "), ("most.log", b"events 1 C 0 R 0 I 0 E 0 traces 1024\nT 0 512 0 1\n")):
        gave = folder.run("./skelfora", "list", log)
        holds(gave.status == 0 and gave.out.startswith(first), f"{log}: {gave.out[:80]!r}")


@test("./skelfora log: an existing OUT.names is kept and extended; a damaged one is refused")
def keeps_names(folder):
    folder.put("out.names", "Seal\r\nAmend\r\n")
    folder.put("calls.csv", TABLE)
    same(folder.run("./skelfora", "log", "calls.csv", "out.log").out, b"2 calls, 5 steps, 4 names\n", "extended")
    same(folder.get("out.names"), "Seal\nAmend\nRequest\nÜbernahme\n".encode(), "the names")
    same(folder.get("out.log"), log_bytes(4, [2, 3, 0], [2, 0]), "the log")
    before = folder.files()
    same(folder.run("./skelfora", "log", "calls.csv", "out.log").status, 0, "once more")
    same(folder.files(), before, "written once more")
    for names, end in (("a\na\n", "line 2: 'a' once more"), ("a\n\nb\n", "line 2: no name"), (b"\xff\n", "line 1: not UTF-8")):
        folder.put("out.names", names)
        gave = folder.run("./skelfora", "log", "calls.csv", "out.log")
        holds(gave.status == 3 and gave.err == f"log: out.names, {end}\n", f"{names!r}: {gave}")


@test("./skelfora log --once writes each different call once, and its graph is the same")
def once(folder):
    folder.put("calls.csv", "steps\na,b\na\na,b\n\"\"\na\n\"\"\n")
    same(folder.run("./skelfora", "log", "--once", "calls.csv", "once.log").out, b"3 calls, 3 steps, 2 names\n", "--once")
    same(folder.get("once.log"), log_bytes(2, [0, 1], [0], []), "the log")
    folder.run("./skelfora", "log", "data/calls.csv", "all.log")
    folder.run("./skelfora", "log", "--once", "data/calls.csv", "different.log")
    graphs = [re.sub(rb"traces \d+|(?m:^T .*\n)", b"", folder.run("./skelfora", "list", log).out) for log in ("all.log", "different.log")]
    same(graphs[1], graphs[0], "the sample's graph")
    holds(folder.get("all.log") != folder.get("different.log"), "the sample has no call twice")


@test("the sample as CSV and as XES give the same log and names")
def sample_twice(folder):
    for kind in ("csv", "xes"):
        same(folder.run("./skelfora", "log", f"data/calls.{kind}", f"{kind}.log").out, b"10 calls, 51 steps, 9 names\n", kind)
    same((folder.get("xes.log"), folder.get("xes.names")), (folder.get("csv.log"), folder.get("csv.names")), "XES and CSV")


ODD = 'call;step\nV1;"Survey, hull"\nV1;"say ""go"""\nV1;"a;b"\nV2;steps\nV3;Übernahme 港\nV3;call\n'


@test("./skelfora log --show prints the calls by name, and ./skelfora log makes the same log of them: the sample, odd names, empty calls, no call")
def round_trip(folder):
    folder.put("odd.csv", ODD)
    folder.put("empty.csv", 'steps\n""\na\n""\n')
    folder.put("none.csv", "steps\n")
    for calls in ("data/calls.csv", "odd.csv", "empty.csv", "none.csv"):
        same(folder.run("./skelfora", "log", calls, "first.log").status, 0, calls)
        shown = folder.run("./skelfora", "log", "--show", "first.log")
        same((shown.status, shown.err), (0, ""), f"{calls} shown")
        same(folder.run("./skelfora", "log", "-", "second.log", data=shown.out).status, 0, f"{calls} again")
        for kind in ("log", "names"):
            same(folder.get(f"second.{kind}"), folder.get(f"first.{kind}"), f"{calls}: the {kind}")
            os.unlink(folder.at(f"second.{kind}"))
            os.unlink(folder.at(f"first.{kind}"))
    folder.put("odd.csv", ODD)
    folder.run("./skelfora", "log", "odd.csv", "odd.log")
    wanted = 'steps\n"Survey, hull","say ""go""","a;b"\nsteps\nÜbernahme 港,call\n'
    same(folder.run("./skelfora", "log", "--show", "odd.log").out.decode(), wanted, "odd names, shown")


@test("./skelfora log --show: a refused log, names that are missing or too few; ./skelfora log used wrongly, or where nothing can be written")
def other_faults(folder):
    folder.put("calls.csv", TABLE)
    folder.put("bad.log", LOG + b"\0")
    folder.put("bad.names", NAMES)
    folder.put("good.log", LOG)
    folder.put("few.names", "a\n")
    folder.put("other.csv", TABLE)
    gave = folder.run("./skelfora", "log", "--show", "bad.log")
    same((gave.status, gave.out, gave.err[:7]), (1, b"refused 4\n", "log: 4:"), "a refused log")
    for words, status in (
        (["--show", "good.log"], 3),
        (["--show", "--names", "few.names", "good.log"], 3),
        (["--show"], 2),
        (["--show", "--once", "good.log"], 2),
        (["calls.csv"], 2),
        (["calls.csv", "a.log", "b.log"], 2),
        (["calls.csv", "calls.csv"], 2),
        (["--call", "nosuch", "calls.csv", "out.log"], 2),
        (["nosuch.csv", "out.log"], 3),
        (["calls.csv", "nosuch/out.log"], 3),
        (["calls.csv", "data"], 2),
        (["calls.csv", "other.csv"], 2),
        (["calls.csv", "-"], 2),
    ):
        before = folder.files()
        gave = folder.run("./skelfora", "log", *words)
        holds((gave.status, gave.out) == (status, b"") and gave.err.count("\n") == 1, f"{words}: {gave}")
        same(folder.files(), before, f"{words}: the folder afterwards")
    same(folder.run("./skelfora", "log", "--help").status, 0, "--help")
