"""What the tests share: a folder to try things in, commands and what they gave, and the list of tests."""
import os
import re
import signal
import subprocess
from collections import namedtuple

ROOT = os.path.dirname(os.path.dirname(os.path.dirname(os.path.realpath(__file__))))

TESTS = []

# Seconds after which a command counts as one that does not end. The longest, ./skelfora library, may have to prove a crate.
LONGEST = 300

Gave = namedtuple("Gave", "status out err")

# What a command says of a build that takes longer than usual: it tells of the machine, not of the command.
SLOW = re.compile(r"(?m)^\w+: still building: .*\n")


class Different(Exception):
    """Something is not as it must be."""


def test(sentence):
    """Marks a function of a folder as the test of a sentence."""

    def mark(function):
        TESTS.append((sentence, function))
        return function

    return mark


def same(got, wanted, what):
    if got != wanted:
        raise Different(f"{what}:\n  wanted {wanted!r}\n  got    {got!r}")


def holds(fact, what):
    if not fact:
        raise Different(what)


def read(*path):
    with open(os.path.join(ROOT, *path), "rb") as file:
        return file.read()


def end(process):
    """Ends a command, and what it began, if it has not ended by itself."""
    if process.poll() is None:
        os.killpg(process.pid, signal.SIGTERM)
        process.wait()


class Folder:
    """A folder that has the repository's commands, data and pages by links, so that what is written there touches nothing."""

    LINKS = ["skelfora", "python", "data", "docs", "crates", "target"]
    LINKS += ["list", "log", "call", "desk", "marks", "nightly", "year", "library", "classroom"]

    def __init__(self, path):
        self.path = path
        os.makedirs(path)
        for name in self.LINKS:
            os.symlink(os.path.join(ROOT, name), self.at(name))

    def at(self, *name):
        return os.path.join(self.path, *name)

    def put(self, name, data):
        with open(self.at(name), "wb") as file:
            file.write(data if isinstance(data, bytes) else data.encode())
        return name

    def make(self, name):
        os.makedirs(self.at(name))

    def get(self, name):
        with open(self.at(name), "rb") as file:
            return file.read()

    def has(self, name):
        return os.path.lexists(self.at(name))

    def files(self):
        return {name: self.get(name) for name in os.listdir(self.path) if os.path.isfile(self.at(name)) and name not in self.LINKS}

    def run(self, *words, data=None, **how):
        """Runs a command here. Its input is `data`, or what `stdin` says."""
        how.setdefault("stdin", subprocess.DEVNULL if data is None else subprocess.PIPE)
        how = {"stdout": subprocess.PIPE, "stderr": subprocess.PIPE, **how}
        begun = subprocess.Popen(list(words), cwd=self.path, start_new_session=True, **how)
        try:
            out, err = begun.communicate(data, timeout=LONGEST)
        except subprocess.TimeoutExpired:
            raise Different(f"{' '.join(words)}: no end after {LONGEST} s") from None
        finally:
            end(begun)
        return Gave(begun.returncode, out, SLOW.sub("", (err or b"").decode()))

    def shell(self, text):
        return self.run("bash", "-euo", "pipefail", "-c", text)


def log_bytes(activities, *calls):
    """A log, written down here a second time so that ./skelfora log is not held to itself."""
    data = [66, 76, 2 if activities > 64 else 1, activities, len(calls) % 256, len(calls) // 256]
    start = 0
    for call in calls:
        data += [start % 256, start // 256, len(call) % 256, len(call) // 256]
        start += len(call)
    return bytes(data + [step for call in calls for step in call])
