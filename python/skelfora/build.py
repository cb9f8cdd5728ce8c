"""Finds what is proved, the programs and the library: has rt make them of today's sources, saying what it does. Everything that is run or
loaded comes from here."""
from __future__ import annotations

import contextlib
import fcntl
import os
import re
import shutil
import signal
import subprocess
import tempfile
import threading
import time
from collections.abc import Iterator, Sequence

from .command import say, unbroken
from .faults import Fault, reason

# The repository: python/skelfora/ stands in it.
ROOT = os.path.dirname(os.path.dirname(os.path.dirname(os.path.realpath(__file__))))

# The proved library, from the repository on: an archive for C and Rust, and a shared library for what loads one.
ARCHIVE = os.path.join("target", "staticlib", "libport.a")
SHARED = os.path.join("target", "staticlib", "libskelfora.so")

# Seconds after which a build that is under way is spoken of.
PATIENCE = 5.0

# The lines of rt that tell what it is at: a crate that it begins to prove, and what came of it.
BEGUN = re.compile(r"rt: chose --jobs \d+ for (\w+)")
CAME = re.compile(r"logic=(proved|not-proved)\b.*")

# The line of rt that stands before what the program writes: it is built of today's sources.
STARTED = "rt: running out/"

# Those that tell where in the sources something is wrong: in the crate's folder or from the root on.
WHERE = re.compile(r"(?:\./)?(\S+\.(?:rt|antt):\d+:\d+: .*)")


def run(name: str, data: bytes = b"", arguments: Sequence[str] = (), folder: str | None = None) -> bytes:
    """What the program writes, given the bytes on standard input. It is built first, if anything changed."""
    build(name)
    ended = subprocess.run([*start(name), *arguments], input=data, stdout=subprocess.PIPE, cwd=folder, check=False)
    if ended.returncode != 0:
        raise Fault(f"the program {name} ended with status {ended.returncode}")
    return ended.stdout


def build(name: str) -> None:
    """Has rt make the program of today's sources. It is asked every time: it looks for what changed by itself, so neither a change
    nor a build that failed leaves an older program to be run. It also runs what it made, here with nothing on standard input."""
    made("the program", program(name), ["rt", "run"], os.path.join("crates", name))


def program(name: str) -> str:
    """Where rt leaves a program, from the repository on."""
    return os.path.join("crates", name, "out", name)


def made(what: str, path: str, words: Sequence[str], folder: str = "") -> None:
    """Has rt make a file, by a command that asks rt for it, in a folder of the repository."""
    if not os.path.exists(os.path.join(ROOT, "crates.txt")):
        raise Fault(f"{what} can't be built: {ROOT} is no copy of the repository")
    if not shutil.which("rt"):
        raise Fault("rt, the Rattle toolchain, is not on the PATH (README.md says where it comes from)")
    with only_one_build(), patience(path), room() as temporary:
        status, said = watched(words, folder, temporary)
    if status != 0 and not any(line.startswith(STARTED) for line in said):
        keep(said)
        for line in wrong(said)[:3]:
            say(line[:300])
        raise Fault(f"{what} could not be built, so none is used; target/log has all that rt said")


def keep(said: Sequence[str]) -> None:
    """Leaves all that rt said where whoever mends the sources can read it."""
    folder = os.path.join(ROOT, "target", "log")
    os.makedirs(folder, exist_ok=True)
    with open(os.path.join(folder, "rt"), "w", encoding="utf-8") as file:
        file.writelines(line + "\n" for line in said)


def wrong(said: Sequence[str]) -> list[str]:
    """The lines that tell where something is wrong, each once and from the repository on. rt names a file from its crate's folder on."""
    found: list[str] = []
    crate = ""
    for line in said:
        begins, place = BEGUN.fullmatch(line), WHERE.fullmatch(line)
        crate = begins.group(1) if begins else crate
        if place:
            text = place.group(1).removeprefix(ROOT + os.sep)
            text = os.path.join("crates", crate, text) if text.startswith(("src/", "specs/", "proofs/")) else text
            found += [text] if text not in found else []
    return found


def library_path() -> str:
    """Where the proved library of today's sources stands, to be loaded: the one place that decides which is used."""
    build_library()
    return os.path.join(ROOT, SHARED)


def build_library() -> None:
    """Archive and shared library of today's sources. What is newer than the archive was made of it."""
    made("the library", ARCHIVE, [os.path.join(ROOT, "compare", "staticlib")])
    archive, shared = (os.path.join(ROOT, path) for path in (ARCHIVE, SHARED))
    if not os.path.exists(shared) or os.path.getmtime(shared) <= os.path.getmtime(archive):
        share()


def share() -> None:
    """All of the archive as a shared library, by the machine's own C compiler."""
    words = ["cc", "-shared", "-Wl,--whole-archive", ARCHIVE, "-Wl,--no-whole-archive", "-Wl,-z,defs", "-lc", "-o", SHARED]
    try:
        subprocess.run(words, cwd=ROOT, check=True)
    except OSError as error:
        raise Fault(f"can't start cc: {reason(error)}") from error
    except subprocess.CalledProcessError as error:
        raise Fault(f"cc could not make {SHARED}") from error


def watched(words: Sequence[str], folder: str, temporary: str) -> tuple[int, list[str]]:
    """Runs a command of rt's with nothing on standard input, telling of each crate as it is proved. Gives its status and its lines."""
    said: list[str] = []
    rt: subprocess.Popen[str] | None = None
    crate, since = "", time.monotonic()
    try:
        with unbroken():
            rt = begun(words, folder, temporary)
        for line in rt.stdout or ():
            said.append(line.rstrip("\n"))
            begins, came = BEGUN.fullmatch(said[-1]), CAME.fullmatch(said[-1])
            if begins:
                crate, since = begins.group(1), time.monotonic()
            elif came and crate:
                say(f"{crate} proved ({time.monotonic() - since:.0f} s)" if came.group(1) == "proved" else f"{crate} NOT PROVED")
                crate = ""
        return rt.wait(), said
    finally:
        with unbroken():
            end(rt)


def begun(words: Sequence[str], folder: str, temporary: str) -> subprocess.Popen[str]:
    return subprocess.Popen(
        words,
        cwd=os.path.join(ROOT, folder),
        stdin=subprocess.DEVNULL,
        stdout=subprocess.PIPE,
        stderr=subprocess.STDOUT,
        env={**os.environ, "TMPDIR": temporary},
        encoding="utf-8",
        errors="replace",
        start_new_session=True,
    )


def end(process: subprocess.Popen[str] | None) -> None:
    """Ends a process and all that it started, if it began and still runs."""
    if process is not None and process.poll() is None:
        for number in (signal.SIGTERM, signal.SIGKILL):
            with contextlib.suppress(ProcessLookupError, subprocess.TimeoutExpired):
                os.killpg(process.pid, number)
                process.wait(5)


@contextlib.contextmanager
def room() -> Iterator[str]:
    """A folder for what rt keeps while it works, gone afterwards. rt runs programs there as nobody, who must be able to pass."""
    folder = None
    try:
        with unbroken():
            folder = tempfile.mkdtemp(prefix="skelfora-")
        os.chmod(folder, 0o711)
        yield folder
    finally:
        with unbroken():
            if folder is not None:
                shutil.rmtree(folder, ignore_errors=True)


@contextlib.contextmanager
def patience(path: str) -> Iterator[None]:
    """Says that a build takes time: at once where there is nothing yet, else when it does."""
    if os.path.exists(os.path.join(ROOT, path)):
        timer = threading.Timer(PATIENCE, say, ["still building: what changed since the last build is proved again"])
        timer.daemon = True
    else:
        timer = threading.Timer(0, say, ["the first build, with all its proofs: this takes some minutes"])
    timer.start()
    try:
        yield
    finally:
        timer.cancel()


@contextlib.contextmanager
def only_one_build() -> Iterator[None]:
    """Two builds in one folder would meet: the later one waits."""
    folder = os.open(ROOT, os.O_RDONLY)
    try:
        try:
            fcntl.flock(folder, fcntl.LOCK_EX | fcntl.LOCK_NB)
        except BlockingIOError:
            say("another build is running here: waiting for it")
            fcntl.flock(folder, fcntl.LOCK_EX)
        yield
    finally:
        os.close(folder)


def start(name: str) -> list[str]:
    """The words that start the program."""
    return [os.path.join(ROOT, program(name))]
