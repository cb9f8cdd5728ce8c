"""The nine commands print, say, write and end as they did before they moved under ./skelfora."""
import kept
from skelfora.door import DAY
from trial import holds, read, same, test


@test("./skelfora: each of the nine commands gives what it gave when it stood at the root by itself, on fixed runs")
def as_before(folder):
    same_runs(folder, lambda name: ["./skelfora", name])


@test("./list and the other eight at the root give the same, and their help calls them so")
def at_root(folder):
    same_runs(folder, lambda name: [f"./{name}"])
    for name in DAY:
        gave = folder.run(f"./{name}", "--help")
        same((gave.status, gave.err, kept.OTHER_NAMES.findall(gave.out.decode())), (0, "", []), f"./{name} --help")
        holds(f"\n  ./{name}" in gave.out.decode(), f"./{name} --help has no example")


def same_runs(folder, door):
    wanted = read("python", "tests", "kept.printed").decode().split("\n\n$ ")
    got = kept.played(folder, door).split("\n\n$ ")
    same(len(got), len(kept.RUNS), "how many runs")
    for one, before in zip(got, wanted, strict=True):
        same(one, before, before.partition("\n")[0])
