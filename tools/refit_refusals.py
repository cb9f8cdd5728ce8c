#!/usr/bin/env python3
"""Brings the second words of `refuses:` lines to the names that goals have today, after `.ci/edits.py --try CRATE`.

    tools/refit_refusals.py --shared CRATE    the wrong versions that share a function with another of their file, for `.ci/edits.py --alone CRATE`
    tools/refit_refusals.py CRATE             writes the names; what was refused at no goal of its function is printed, with what was said there

What a wrong version is refused at is read from the log of its own try where there is one, else from its file's, where no other names the
function. A goal that is named already and was refused stays. """
import collections
import os
import sys

sys.dont_write_bytecode = True
ROOT = os.path.normpath(os.path.join(os.path.dirname(os.path.abspath(__file__)), ".."))
sys.path.insert(0, os.path.join(ROOT, ".ci"))
import edits
import trying


def kinds(fact):
    """What the end of a goal's name says of the same place that the older name of a fact did."""
    return "-preserved" if "again" in (fact or "") else "-init" if "holds" in (fact or "") else ""


def goals_in(crate, label, target):
    log = trying.log_of(crate, label)
    return list(dict.fromkeys(goal for goal, _ in edits.refusals(log).get(target, []) if goal)) if os.path.exists(log) else []


def shared(found):
    claims = collections.Counter(w.target for w in found)
    return {w.name for w in found if claims[w.target] > 1 and not w.target.endswith(".antt")}


def chosen(crate, path, w, is_shared):
    """The goal that refuses a wrong version, or None."""
    goals = goals_in(crate, edits.label_of(path, w.name), w.target)
    if not goals and not is_shared:
        goals = goals_in(crate, edits.label_of(path), w.target)
    if w.fact in (None, *goals):
        return w.fact or "" if goals else None
    return next((goal for goal in goals if goal.endswith(kinds(w.fact))), goals[0]) if goals else None


def refit(crate, path):
    found = edits.wrongs(path)[0]
    with open(path, encoding="utf-8") as file:
        lines = file.read().split("\n")
    for w in found:
        goal = chosen(crate, path, w, w.name in shared(found))
        if goal is None:
            print(f"{os.path.relpath(path, ROOT)}:{w.line}: {w.name} was refused at no goal of {w.target}")
            tell(crate, edits.label_of(path), w.target)
            continue
        at = next(k for k in range(w.line - 1, len(lines)) if lines[k].startswith("refuses:"))
        lines[at] = f"refuses: {w.target} {goal}".rstrip()
    with open(path, "w", encoding="utf-8") as file:
        file.write("\n".join(lines))


def tell(crate, label, target):
    with open(trying.log_of(crate, label), encoding="utf-8", errors="replace") as log:
        for line in log:
            if f"/proofs/{target}/" in line and "error" in line:
                print("    " + line.rstrip()[:300])


def main(words):
    if len(words) == 2 and words[0] == "--shared":
        print(*(name for _, path in edits.files([words[1]]) for name in sorted(shared(edits.wrongs(path)[0]))))
    elif len(words) == 1 and not words[0].startswith("-"):
        for crate, path in edits.files(words):
            refit(crate, path)
    else:
        sys.exit(__doc__)


if __name__ == "__main__":
    main(sys.argv[1:])
