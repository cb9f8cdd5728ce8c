"""README, FORMATS and CLASSROOM: each command that they show, each byte, each number, each row."""
import re
import subprocess

import pages
from skelfora import logfile
from skelfora.library import Library
from trial import holds, log_bytes, read, same, test


@test("README: each of its commands prints what it shows; the sample goes from CSV to sentences by two of them")
def readme(folder):
    pages.run("README.md", folder)
    same([folder.has(name) for name in ("calls.log", "calls.names")], [True, True], "the two files")


@test("README names the version of rt that is here")
def version(_folder):
    here = subprocess.run(["rt", "version"], stdout=subprocess.PIPE, check=True, encoding="utf-8").stdout.strip()
    holds(f"`{here}`" in read("README.md").decode(), f"README does not name {here}")


@test("FORMATS: L and G byte by byte are the sample log and the graph file that is mined from it")
def byte_by_byte(_folder):
    for heading, path in (("bytes of L", ["data", "L.log"]), ("bytes of G", ["crates", "cases", "data", "sample.graph"])):
        (_, *rows), = pages.tables("docs/FORMATS.md", heading)
        data = b""
        for numbers, at, _what in rows:
            same(len(data), int(at), f"{heading}: the place of {numbers}")
            data += bytes(map(int, numbers.split()))
        same(data, read(*path), heading)


@test("FORMATS: the graph of edition 2 byte by byte is what is mined from its log")
def edition_two(_folder):
    (_, *rows), = pages.tables("docs/FORMATS.md", "bytes of a graph of edition 2")
    data = b""
    for numbers, at, _what in rows:
        same(len(data), int(at), f"the place of {numbers}")
        data += bytes(map(int, numbers.split()))
    number, graph = Library().mine(log_bytes(128, [3, 64, 127], [3, 127]), 0)
    same((number, len(graph), graph[: len(data)]), (0, 220, data), "the graph file")


@test("FORMATS: G's opening marking byte by byte is the one that the library gives")
def opening(_folder):
    (_, *rows), = pages.tables("docs/FORMATS.md", "bytes of G's opening marking")
    data = b"".join(bytes(map(int, numbers.split())) for numbers, _at, _what in rows)
    same([int(at) for _numbers, at, _what in rows], list(range(0, len(data), 8)), "the places")
    same(data, Library().opening(read("crates", "cases", "data", "sample.graph")), "the marking")


def answers():
    """The numbers and their names, as the code has them."""
    found = re.findall(r"Answer::(\w+)[^=\n]*=> (\d+),", read("crates", "sets", "src", "answer.rt").decode())
    return {int(number): "SKELFORA_" + re.sub(r"(?<!^)(?=[A-Z])", "_", name).upper() for name, number in found}


@test("FORMATS and the header have each number of the code, with its name; the refusals of a log have a sentence in ./skelfora list")
def numbers(_folder):
    (_, *rows), = pages.tables("docs/FORMATS.md", "number")
    same({int(row[0]): row[1].strip("`") for row in rows}, answers(), "FORMATS, the numbers")
    header = re.findall(r"(SKELFORA_\w+) = (\d+)", read("docs", "skelfora.h").decode())
    same({int(number): name for name, number in header}, answers(), "skelfora.h, the numbers")
    same(sorted(logfile.MEANING), [1, 2, 3, 4, 5], "the refusals of a log")


@test("CLASSROOM: each call that it plays prints what the page shows")
def played(folder):
    pages.run("docs/CLASSROOM.md", folder)


@test("CLASSROOM: each row of the page is one that ./skelfora classroom prints, in the page's order")
def classroom(folder):
    gave = folder.run("./skelfora", "classroom")
    same(gave.status, 0, "./skelfora classroom")
    parts = gave.out.decode().split("\n\n")
    on_page = pages.tables("docs/CLASSROOM.md", "Trace")
    same(len(on_page), len(parts), "how many tables")
    for (headings, *rows), part in zip(on_page, parts):
        printed = [re.split(r" {2,}", line) for line in part.splitlines()[1:]]
        for row, cells in zip(rows, printed[1:], strict=True):
            said = dict(zip(printed[0], cells, strict=True))
            for heading, cell in zip(headings[:-1], row):
                same(cell, said[heading.lower()], f"{row[0]}, {heading}")
