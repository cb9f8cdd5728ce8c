"""./skelfora itself: its help, its version, what is no command, and how it is started."""
import os
import re
import sys

from skelfora import __version__
from skelfora.door import DAY
from trial import ROOT, Gave, holds, read, same, test


@test("./skelfora --help has each command that there is, a line each, and so has README; each has --help with an example")
def helps(folder):
    files = os.listdir(os.path.join(ROOT, "python", "skelfora", "commands"))
    there = sorted(name[: -len(".py")] for name in files if not name.startswith("_"))
    same(sorted(DAY), there, "a file for each command")
    for word in ("-h", "--help"):
        gave = folder.run("./skelfora", word)
        same((gave.status, gave.err, re.findall(r"(?m)^  (\w+) {2,}\w", gave.out.decode())), (0, "", list(DAY)), word)
    rows = re.findall(r"(?m)^\| `\./skelfora (\w+)", read("README.md").decode())
    same(sorted(set(rows)), sorted(DAY), "the commands of README's table")
    for name in DAY:
        gave = folder.run("./skelfora", name, "--help")
        same((gave.status, gave.err), (0, ""), f"{name} --help")
        holds(f"\n  skelfora {name}" in gave.out.decode(), f"{name} --help has no example")


@test("./skelfora --version, python -m skelfora, and a link from any folder are one program")
def one_program(folder):
    wanted = Gave(0, f"skelfora {__version__}\n".encode(), "")
    same(folder.run("./skelfora", "--version"), wanted, "./skelfora")
    gave = folder.run(sys.executable, "-B", "-m", "skelfora", "--version", env={**os.environ, "PYTHONPATH": "python"})
    same(gave, wanted, "python -m skelfora")
    folder.make("deep")
    same(folder.shell("cd deep && ../skelfora --version"), wanted, "a link")


@test("./skelfora used wrongly, without a command or with one that there is not: one line, exit status 2")
def used_wrongly(folder):
    for words, said in (
        ([], "a command is wanted"),
        (["lits"], "there is no command 'lits' (did you mean list?)"),
        (["--nosuch"], "there is no command '--nosuch'"),
        (["<script>\n"], "there is no command '<script>\\n'"),
        (["--version", "list"], "--version stands alone"),
        (["--help", "list"], "--help stands alone"),
    ):
        same(folder.run("./skelfora", *words), Gave(2, b"", f"skelfora: {said}; see skelfora --help\n"), f"./skelfora {' '.join(words)}")
    same(folder.shell("./skelfora --help >/dev/full").status, 3, "a full device")


@test("the package away from the repository: what needs the proved library says in one line that it can't be built there")
def away(folder):
    folder.make("away")
    same(folder.shell("cp -r python/skelfora away/skelfora").status, 0, "a copy")
    for name, words in (("list", ["data/L.log"]), ("call", ["data/L.log"])):
        gave = folder.run(sys.executable, "-B", "-m", "skelfora", name, *words, env={**os.environ, "PYTHONPATH": folder.at("away")})
        same((gave.status, gave.out, gave.err.count("\n")), (3, b"", 1), name)
        holds("no copy of the repository" in gave.err, f"{name} says {gave.err!r}")
