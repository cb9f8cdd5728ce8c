"""Tries files of wrong versions, each on a copy of its crate: `rattle check`, with the words that rt gives it. .ci/edits.py is the command.

A file of wrong versions changes a few modules of its crate. What rt has just proved of the others lies in the crate's out/incremental. So
each copy gets a folder of its own with that in it, and the checker looks again only at what the edits change and at what leans on that.
Where there is no such folder to be had, it checks the whole crate: slower, and the same is refused.

The verdict on the crates themselves never rests on such a folder: it is that of `rt ci`, which takes none. Nor does the folder help a wrong
version to be refused: what is taken from it is what was proved, and a refusal must be an error at the goal that the wrong version names.

The copies stand in the temporary folder, since rt refuses a checkout with a source that no crate has; what was said of each is in
target/wrong. """
import collections
import contextlib
import os
import shutil
import subprocess
import tempfile
import time

ROOT = os.path.normpath(os.path.join(os.path.dirname(os.path.abspath(__file__)), ".."))
PARTS = ("src", "specs", "proofs")
# The most memory that a try may hold, in bytes: some searches that find nothing would take all that the machine has, and what else runs
# with it.
MOST = 6_000_000_000
# What one try came to: the checker's exit status, seconds, and seconds of a processor.
Ended = collections.namedtuple("Ended", "status took used")


def kit():
    """The folder of the kit that rt is of."""
    return os.path.dirname(subprocess.run(["rt", "doc"], check=True, capture_output=True, text=True).stdout.strip())


def dependencies(crate):
    for line in open(os.path.join(ROOT, "crates.txt"), encoding="utf-8"):
        name, _, others = line.partition("#")[0].partition(":")
        if name.split()[:1] == [crate]:
            return others.split()
    return []


def below(crate):
    """The crates of the repository that a crate stands on, directly or through others."""
    found = []
    for name in filter(is_ours, dependencies(crate)):
        found += [one for one in [*below(name), name] if one not in found]
    return found


def out(crate, *path):
    return os.path.join(ROOT, "crates", crate, "out", *path)


def is_ours(name):
    return os.path.isdir(os.path.join(ROOT, "crates", name, "src"))


def check_words(kit, crate, root_file):
    """The command that rt gives for a check of a crate, at one job."""
    words = [os.path.join(kit, "bin", "rattle"), "check", "--crate-name", crate, root_file]
    libraries = os.path.join(kit, "rlibs")
    for name in ["std", *dependencies(crate)]:
        words += ["--extern", f"{name}={os.path.join(out(name, 'rlib') if is_ours(name) else libraries, name + '.rlib')}"]
    for folder in [libraries, *(out(name, "rlib") for name in below(crate))]:
        words += ["-L", "dependency=" + folder]
    words += ["--antt-project", os.path.join(kit, "rattle", "logic", "antt-project.json")]
    return words + ["--logic-built", os.path.join(kit, "logic_built"), "--jobs", "1"]


def linked(one, other):
    """A checked module gets a second name, since a check makes such a file anew and never writes into it; where that can't be, it is
    copied."""
    try:
        if one.endswith(".oantt"):
            return os.link(one, other)
    except OSError:
        pass
    return shutil.copy2(one, other)


def proved_modules(crate, where):
    """Lays what rt proved of a crate into a folder for one try, and gives the words that hand it over."""
    if os.path.isdir(out(crate, "incremental")):
        shutil.copytree(out(crate, "incremental"), where, copy_function=linked)
    return ["--incremental", where]


def copied(crate, texts, where):
    """Copies a crate's files, with these texts in the stead of some (None: left out); gives the root file from there on."""
    for part in PARTS:
        if os.path.isdir(os.path.join(ROOT, "crates", crate, part)):
            shutil.copytree(os.path.join(ROOT, "crates", crate, part), os.path.join(where, part))
    for file, text in texts.items():
        os.remove(os.path.join(where, file))
        if text is not None:
            with open(os.path.join(where, file), "w", encoding="utf-8") as out:
                out.write(text)
    return "src/main.rt" if os.path.exists(os.path.join(where, "src", "main.rt")) else "src/lib.rt"


class Try:
    """One file of wrong versions that is being tried. What the checker says of it is kept in its log."""

    def __init__(self, kit, crate, label, texts):
        self.crate, self.label, self.began = crate, label, time.monotonic()
        self.room = tempfile.mkdtemp(prefix="skelfora-wrong-")
        try:
            copy = os.path.join(self.room, crate)
            words = check_words(kit, crate, copied(crate, texts, copy)) + proved_modules(crate, os.path.join(self.room, "proved"))
            os.makedirs(os.path.dirname(log_of(crate, label)), exist_ok=True)
            with open(log_of(crate, label), "w", encoding="utf-8") as log:
                self.process = subprocess.Popen(words, cwd=copy, stdin=subprocess.DEVNULL, stdout=log, stderr=subprocess.STDOUT)
        except BaseException:
            shutil.rmtree(self.room, ignore_errors=True)
            raise

    def end(self, status, used):
        self.process.returncode = os.waitstatus_to_exitcode(status)
        shutil.rmtree(self.room, ignore_errors=True)
        return Ended(self.process.returncode, time.monotonic() - self.began, used.ru_utime + used.ru_stime)

    def hold(self):
        """Ends the checker where it has outgrown what a try may hold; it then has no verdict."""
        with contextlib.suppress(OSError, IndexError):
            with open(f"/proc/{self.process.pid}/statm", encoding="utf-8") as file:
                if int(file.read().split()[1]) * os.sysconf("SC_PAGE_SIZE") > MOST:
                    self.process.kill()

    def stop(self):
        self.process.kill()
        self.process.wait()
        shutil.rmtree(self.room, ignore_errors=True)


def log_of(crate, label):
    return os.path.join(ROOT, "target", "wrong", crate, label + ".log")


def at_once():
    return int(os.environ.get("RT_JOBS") or len(os.sched_getaffinity(0)))


def tries(files, ready):
    """Tries files, (crate, label, texts) each and the dearest first, as many at once as there are processors (RT_JOBS: another number). A file
    waits until its crate is ready. Gives each as it ends. Whatever ends this ends the checks too."""
    the_kit, waiting, running = kit(), list(files), {}
    try:
        while waiting or running:
            for file in [file for file in waiting if ready(file[0])][: at_once() - len(running)]:
                waiting.remove(file)
                begun = Try(the_kit, *file)
                running[begun.process.pid] = begun
            pid, status, used = os.wait4(-1, os.WNOHANG) if running else (0, 0, None)
            if pid:
                ended = running.pop(pid)
                yield ended.crate, ended.label, ended.end(status, used)
            else:
                for one in running.values():
                    one.hold()
                time.sleep(0.2)
    finally:
        for left in running.values():
            left.stop()
