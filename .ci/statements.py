#!/usr/bin/env python3
"""What each library lets others call, read from what the checker wrote of it (crates/CRATE/out/rlib, so run this after `rt ci` or `rt
lib`): no public function asks anything of its caller, each says something, each has a row in docs/STATEMENTS.md, and each has a theorem
in promises/proofs/Outcomes.antt that starts from its own contract. Nor is there a row or a theorem for a function that is not there. The
source is not read, so however a function came to be public, it is seen; but what port_c exports for C is held to port by the source."""
import json
import os
import re
import sys

ROOT = os.path.join(os.path.dirname(os.path.abspath(__file__)), "..")
PROMISES = os.path.join("crates", "promises", "proofs")
faults = []


def read(*path):
    with open(os.path.join(ROOT, *path), encoding="utf-8") as file:
        return file.read()


def libraries():
    heads = [line.split(":")[0].split() for line in read("crates.txt").splitlines() if ":" in line and not line.startswith("#")]
    # a static library lets C call, and no crate: what it exports is held to the library's (exports_alike)
    names = [words[0] for words in heads if "staticlib" not in words]
    return [name for name in names if os.path.exists(os.path.join(ROOT, "crates", name, "src", "lib.rt"))]


# ---- what the checker wrote


FACADE = "facade/proofs/"


def written(crate):
    """By its path, each module that the checker made of a library: what it is of, in its own words. A module's path is a line, and the
    next says it."""
    found, path = {}, None
    for line in read("crates", crate, "out", "rlib", crate + ".rlib", "lang", "antt", "made.json").splitlines():
        said = json.loads(line) if line else None
        if isinstance(said, dict) and path:
            found[path] = said
        path = said if isinstance(said, str) else None
    return found


def contract(crate, modules, module):
    """The contract of a function by a module of the facade, which may stand for another, and that perhaps for one more."""
    path = f"specs/contracts/{module}"
    while "StandsFor" in modules[path]:
        path = modules[path]["StandsFor"]["source"].removeprefix(f"Rattle-{crate}-").replace(".", "/")
    return modules[path]["Contract"]


def impl_of(modules, module):
    """What the checker says of the impl that a method is of, if it is of one."""
    return modules.get(f"specs/contracts/{module.rpartition('/')[0]}/TheImpl", {}).get("ImplValues", {})


def asks_nothing(impl):
    """Whether a method keeps its trait's own answer to when it may be called, which is always: no impl here has another."""
    members = impl.get("block", {}).get("of", {}).get("members", [])
    return bool(members) and all(ghost is None for member, ghost in zip(members, impl["ghosts"]) if member.startswith("can_"))


def public(crate):
    """By symbol, the functions that others can call: the contract, and the modules that it has for others. Of what a method asks, the
    clauses that are its trait's own have no text there: they say that it may be called. Those that are written at it count."""
    modules, found = written(crate), {}
    for path, said in modules.items():
        if path.startswith(FACADE) and "Statement" in said.get("StandsFor", {}).get("children", []):
            module = path.removeprefix(FACADE)
            if module.endswith("/TheImpl"):
                continue
            of = contract(crate, modules, module)
            if asks_nothing(impl_of(modules, module)):
                of = {**of, "requires": [clause for clause in of["requires"] if "Read" in clause["text"]]}
            found.setdefault(of["function"]["symbol"], (of, set()))[1].add(module.replace("/", "."))
    return found


# ---- what is said of them


def rows():
    """By crate, the names in the first column of the tables."""
    crate, names = None, {}
    for line in read("docs", "STATEMENTS.md").splitlines():
        if line.startswith("## "):
            crate = line[3:].split()[0].strip("`,")
        elif line.startswith("| `"):
            names.setdefault(crate, []).extend(re.findall(r"`([^`]+)`", line.split("|")[1]))
    return names


def theorems(text):
    """By crate, the theorems of one outcome: what each is called after, its kind, and the contract that it starts from."""
    crate, found = None, {}
    for line in text.splitlines():
        if line.startswith("-- ---- "):
            crate = re.match(r"\w+", line[8:]).group()
        named = re.match(r"pub ([\w-]+)-once : (\S+) (\S+)(.*)", line)
        if named:
            found.setdefault(crate, {})[named.group(1)] = named.groups()[1:]
    return found


def imported(text):
    """Modules by the name that a file has for them; a name given twice counts for neither."""
    pairs = re.findall(r"(?m)^use (\S+) as (\S+)$", text)
    return {name: module for module, name in pairs if [n for _, n in pairs].count(name) == 1}


# ---- the two held together


def rows_of(crate, functions, names):
    for symbol in functions:
        if sum(f"::{symbol}".endswith(f"::{name}") for name in names) != 1:
            faults.append(f"docs/STATEMENTS.md: {crate} has not one row for {symbol}")
    for name in names:
        if sum(f"::{symbol}".endswith(f"::{name}") for symbol in functions) != 1:
            faults.append(f"docs/STATEMENTS.md: {crate} has a row for {name}, which is not one public function")


def called(crate, symbol):
    """What a function's theorem is called after: calllog's `ask` is not the engine's, a table's `row` is not that of rows, a set has a `length`
    and a marking another, and the plain engine and the desk have a `step` of their own, months a `join`."""
    parts = symbol.split("::")
    both = parts[-2][0].isupper() or parts[-2] in ("tables", "log") or parts[-1] == "length"
    name = "-".join(parts[-2:] if both else parts[-1:]).replace("_", "-")
    if crate in ("plain", "desk", "months"):
        return f"{crate}-{name}"
    return "log-ask" if symbol == "calllog::trace::ask" else name


def outcome_of(symbol, said, modules, theorem):
    """Whether the theorem starts from the function's own contract, and is of all that it leaves."""
    kind, post, left = theorem
    crate = symbol.split("::")[0]
    own = {f"Rattle.{crate}.proofs.{module}.Reads" for module in modules}
    if not post.endswith(".Post") or OUTCOMES.get(post.removesuffix(".Post")) not in own:
        faults.append(f"{PROMISES}/Outcomes.antt: the theorem of {symbol} does not start from its own contract")
    params = said["function"]["params"]
    places = ["s" + ".1" * i + ".0" for i, param in enumerate(params) if param["ty"]["name"].endswith("RefMut")]
    lent = bool(places)
    result = said["function"]["result"]["name"]
    gives = result != "unit"
    plain = "OnceSeen" if "Ref" in result else "Once"  # of a reference the contract says what it shows
    if kind != {(True, True): "OnceLent", (True, False): "OnceLeft"}.get((lent, gives), plain):
        faults.append(f"{PROMISES}/Outcomes.antt: the theorem of {symbol} is not of all that it gives and leaves")
    for place in places:
        if f"{place}.now" not in left:
            faults.append(f"{PROMISES}/Outcomes.antt: the theorem of {symbol} does not speak of what it leaves at {place}")
    for param in params:
        if "Ref" not in param["ty"]["name"] and any("Lifetime" in arg or "Lft" in arg for arg in param["ty"]["args"]):
            faults.append(f"{symbol} takes a struct that holds a reference: what it lends is not read here")


def check(crate):
    functions = public(crate)
    rows_of(crate, functions, ROWS.get(crate, []))
    proved = THEOREMS.get(crate, {})
    for symbol, (said, modules) in sorted(functions.items()):
        if said["requires"]:
            faults.append(f"{symbol} is public and has a requires")
        if said["ghost"]:
            faults.append(f"{symbol} is public and has a ghost clause: its contract holds only for whoever has such a value")
        if not said["ensures"]:
            faults.append(f"{symbol} is public and has no ensures")
        name = called(crate, symbol)
        if name in proved:
            outcome_of(symbol, said, modules, proved[name])
        else:
            faults.append(f"{PROMISES}/Outcomes.antt: there is no theorem {name}-once of {symbol}")
    for name in sorted(set(proved) - {called(crate, symbol) for symbol in functions}):
        faults.append(f"{PROMISES}/Outcomes.antt: {name}-once is of no public function of {crate}")
    return len(functions)


def stated(crate, mark):
    """By name, what the functions of a crate's source that are so marked take, give and state."""
    found = {}
    for folder, _, files in os.walk(os.path.join(ROOT, "crates", crate, "src")):
        for text in (read(folder, file) for file in sorted(files)):
            for name, head in re.findall(rf"(?ms)^{mark}fn (skelfora_\w+)(.*?)\n\{{", text):
                # a head too long for its line has a line for each parameter
                found[name] = " ".join(re.sub(r"\(\s+", "(", re.sub(r",?\s+\)", ")", head)).split())
    return found


def exports_alike():
    """Each export for C has the parameters and the clauses of port's function of its name, of which there is a row and a theorem, and the
    header has it."""
    exported, own = stated("port_c", r"#\[unsafe\(no_mangle\)\]\npub extern \"C\" "), stated("port", "pub ")
    declared = set(re.findall(r"\b(skelfora_\w+)\(", read("docs", "skelfora.h")))
    for name in sorted({*exported, *own}):
        if name not in own or name not in exported:
            faults.append(f"{name} is in one of port and port_c alone")
        elif exported[name] != own[name]:
            faults.append(f"crates/port_c exports {name} with other parameters or clauses than crates/port states")
        if name not in declared:
            faults.append(f"docs/skelfora.h: {name} is not declared")


TEXT = read(PROMISES, "Outcomes.antt")
ROWS, THEOREMS, OUTCOMES = rows(), theorems(TEXT), imported(TEXT)
counts = {crate: check(crate) for crate in libraries()}
exports_alike()
print(*faults, sep="\n") if faults else None
print(f"public functions: {sum(counts.values())} ({', '.join(f'{crate} {n}' for crate, n in counts.items())})")
sys.exit(bool(faults))
