"""./skelfora list and the build behind it, tried on a repository of two small crates, so that a build from nothing takes seconds."""
import os
import shutil
import signal
import subprocess
import time

from trial import ROOT, Folder, Gave, Different, holds, same, test

FIGURE = "pub fn figure() -> u8 {\n    %s\n}\n"
PROGRAM = """\
use std::io;

fn main(rt: HostRuntime) -> io::Result<()> {
    let figure = figures::figure();
    println!(rt; "{figure}")?;
    Ok(())
}
"""


# The repository of the first test, once it is built: the second goes on from there.
BUILT = []


class Small(Folder):
    """A repository with ./skelfora list and the package as they are, and a program `listing` that writes a number which a library gives."""

    LINKS = []

    def __init__(self, path):
        super().__init__(path)
        os.chmod(path, 0o755)
        shutil.copytree(os.path.join(ROOT, "python", "skelfora"), self.at("python", "skelfora"))
        shutil.copy(os.path.join(ROOT, "skelfora"), self.at("skelfora"))
        self.put("crates.txt", "figures:\nlisting: figures\n")
        for crate in ("figures", "listing"):
            os.makedirs(self.at("crates", crate, "src"))
        self.put("crates/listing/src/main.rt", PROGRAM)
        self.write("7")

    def write(self, figure, beside=""):
        self.put("crates/figures/src/lib.rt", FIGURE % f"{figure}{beside}")
        self.put("crates/listing/stdout", figure + "\n")

    def busy(self):
        """The processes that work in this folder."""
        found = []
        for process in filter(str.isdigit, os.listdir("/proc")):
            try:
                if os.readlink(f"/proc/{process}/cwd").startswith(self.path):
                    found.append(process)
            except OSError:
                pass
        return found


def lines(err):
    return [line for line in err.splitlines() if line.startswith("list: ")]


@test("the first build says that it takes minutes and names each crate as it is proved, one beside it waits, the next says nothing")
def first_build(folder):
    small = Small(folder.at("small"))
    gave = small.shell("./skelfora list </dev/null & { sleep 1; ./skelfora list </dev/null 2>second; } >again; wait")
    same((gave.status, gave.out, small.get("again")), (0, b"7\n", b"7\n"), "the first build, and a second one")
    holds(b"waiting" in small.get("second"), "the second did not wait")
    said = lines(gave.err)
    holds("minutes" in said[0], f"no word of the time: {said}")
    for crate in ("figures", "listing"):
        holds(any(line.startswith(f"list: {crate} proved (") for line in said), f"{crate} is not named: {said}")
    same(small.run("./skelfora", "list", data=b""), Gave(0, b"7\n", ""), "the next call")
    BUILT.append(small)


@test("after a change, or without its program, today's is built and run; after a build that failed none is, the second time neither")
def rebuilds(folder):
    small = BUILT[0] if BUILT else Small(folder.at("small"))
    if BUILT:
        os.unlink(small.at("crates/listing/out/listing"))
    same(small.run("./skelfora", "list", data=b"").out, b"7\n", "before")
    small.write("8")
    gave = small.run("./skelfora", "list", data=b"")
    holds((gave.status, gave.out) == (0, b"8\n"), f"after a change of a library: {gave}")
    small.write("9", " +")
    for time_ in ("first", "second"):
        gave = small.run("./skelfora", "list", data=b"")
        holds((gave.status, gave.out) == (3, b""), f"{time_} call after a build that failed: {gave}")
        holds("could not be built" in gave.err and "crates/figures/src/lib.rt:3:1: error" in gave.err, f"it says {gave.err!r}")


@test("interrupted while it builds, it ends all that it began and leaves nothing in the temporary folder")
def interrupted(folder):
    os.makedirs(folder.at("temporary"))
    os.chmod(folder.at("temporary"), 0o755)
    for k, number in enumerate((signal.SIGINT, signal.SIGTERM)):
        small = Small(folder.at(f"small{k}"))
        begun = subprocess.Popen(
            ["./skelfora", "list"],
            cwd=small.path,
            env={**os.environ, "TMPDIR": folder.at("temporary")},
            stdin=subprocess.DEVNULL,
            stdout=subprocess.DEVNULL,
            stderr=subprocess.PIPE,
        )
        begun.stderr.readline()
        wait_until(lambda: os.listdir(folder.at("temporary")) and len(small.busy()) > 1, "a build that runs")
        begun.send_signal(number)
        same(begun.wait(30), 128 + number, "exit status")
        begun.stderr.close()
        same(os.listdir(folder.at("temporary")), [], "the temporary folder")
        wait_until(lambda: not small.busy(), "an end of what was begun", 0.7)


def wait_until(fact, what, seconds=20):
    limit = time.monotonic() + seconds
    while not fact():
        if time.monotonic() > limit:
            raise Different(f"waited for {what} in vain")
        time.sleep(0.02)
