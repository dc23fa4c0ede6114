"""Compares docs/MAP.md with the sources, and its walks with what callgrind sees the built program enter."""
import os
import re
import subprocess
import tempfile

from documented.sources import PROMISING, files_of, functions
from programs import TOP, are_there, read

BUILT = os.path.join(TOP, "crates", "wgsl_check", "out", "wgsl_check")
NAMED = re.compile(r"`([\w./-]+\.(?:rt|antt|md|c|h|py|rs|txt))`")
WALK = re.compile(r"^\| `([^`]+)` \| (`wgsl_\w+`: .*) \|$", re.MULTILINE)
STEP = re.compile(r"`([\w/]+\.rt)`(?: \(`(\w+)`\))?")
CRATE = re.compile(r"^\| (`\w+`(?:, `\w+`)*) \| .* \| (std|`\w+`(?:, `\w+`)*) \|$", re.MULTILINE)
SYMBOL = re.compile(r"^c?fn=\(\d+\) (\w+(?:::\w+)+)", re.MULTILINE)


def repository_files():
    for folder, folders, files in os.walk(TOP):
        folders[:] = set(folders) - {"out", "target", ".git", "__pycache__"}
        for name in files:
            yield os.path.relpath(os.path.join(folder, name), TOP)


def compare_paths():
    """Each file that docs/MAP.md names is there."""
    there = list(repository_files())
    names = set(NAMED.findall(read("docs", "MAP.md")))
    walked = {file for _, rows in read_walks().items() for file, _ in rows}
    return [
        f"MAP.md names {name}, which isn't there"
        for name in sorted(names)
        if not any(path == name or path.endswith("/" + name) for path in there + sorted(walked))
    ]


def compare_crates():
    """docs/MAP.md has each crate, with what crates.txt says that it stands on; and each file of code says what it has."""
    lines = [line.partition(":") for line in read("crates.txt").split("\n") if line and not line.startswith("#")]
    listed = {name.split()[0]: sorted(below.split()) for name, _, below in lines}
    faults, named = [], {}
    for crates, below in CRATE.findall(read("docs", "MAP.md")):
        crates, below = re.findall(r"\w+", crates), sorted(re.findall(r"\w+", below.replace("std", "")))
        named.update((crate, below) for crate in crates)
        if sorted({other for crate in crates for other in listed.get(crate, ())}) != below:
            faults.append(f"MAP.md: {crates} stand on {below}, but crates.txt says otherwise")
    faults += [f"MAP.md has no row of the crate {crate}" for crate in sorted(set(listed) - set(named))]
    faults += [f"MAP.md has a row of {crate}, which crates.txt doesn't list" for crate in sorted(set(named) - set(listed))]
    for path in (path for crate in PROMISING for path in files_of(crate)):
        if not read(path).startswith("//"):
            faults.append(f"{path} doesn't say in its first line what it has")
    return faults


def read_walks():
    """Each walk of docs/MAP.md: what is called, and each file that is entered, with the function that it names."""
    walks = {}
    for call, groups in WALK.findall(read("docs", "MAP.md")):
        walks[call] = []
        for group in groups.split("; "):
            crate, _, files = group.partition(": ")
            walks[call] += [(os.path.join("crates", crate.strip("`"), "src", file), name) for file, name in STEP.findall(files)]
    return walks


def compare_rows(call, rows):
    """Each file of a walk is there, once. The function that is named with it is one of it."""
    files = [file for file, _ in rows]
    faults = [f"{file} isn't there" for file in files if not os.path.exists(os.path.join(TOP, file))]
    faults += [f"{file} is named twice" for file in sorted(set(files)) if files.count(file) > 1]
    for file, function in [] if faults else rows:
        if function and function not in (name for _, _, name in functions(file)):
            faults.append(f"{function} isn't in {file}")
    return [f"MAP.md, walk of {call}: {fault}" for fault in faults]


def homes():
    """The files of each function, by its crate, its owner as a symbol of the built program spells it, and its name."""
    found = {}
    for crate in PROMISING:
        for path in files_of(crate):
            for kind, trait, name in functions(path):
                found.setdefault((crate, kind + re.sub(r"\W", "", trait), name), set()).add(path)
    return found


def entered_by(line, homes_of):
    """The files of the functions that callgrind sees entered when the program answers a line."""
    with tempfile.TemporaryDirectory() as folder:
        out = os.path.join(folder, "out")
        subprocess.run(
            ["valgrind", "--tool=callgrind", f"--callgrind-out-file={out}", BUILT],
            input=line + "\n",
            capture_output=True,
            check=True,
            text=True,
        )
        symbols = set(SYMBOL.findall(read(out)))
    for symbol in symbols:
        crate, *modules, function = symbol.split("::")
        owner = modules.pop() if modules and modules[-1][0].isupper() else ""
        files = homes_of.get((crate, owner, function), set())
        module = "/".join(["crates", crate, "src"] + modules)
        files = {path for path in files if path.removesuffix(".rt").startswith(module)} if len(files) > 1 else files
        if len(files) == 1:
            yield next(iter(files)), function


def compare_with_program(walks):
    """What callgrind sees entered is in the walk. It sees only what the compiler left a function of its own."""
    homes_of = homes()
    faults = []
    for line, rows in walks.items():
        if line.split()[0] not in ("binary", "call", "layout"):
            continue
        seen = dict(entered_by(line, homes_of))
        if len(seen) < 5:
            faults.append(f"callgrind sees too little of {line!r}: {sorted(seen)}")
        files = {file for file, _ in rows}
        faults += [f"MAP.md, walk of {line}: {f} is entered, by {seen[f]}" for f in sorted(set(seen) - files)]
    return faults


def compare_walks():
    walks = read_walks()
    faults = [] if walks else ["MAP.md has no walk"]
    for call, rows in walks.items():
        faults += compare_rows(call, rows)
    if faults:
        return faults
    if not os.path.exists(BUILT):
        return [f"the walks in MAP.md are not compared with the program: there is no {BUILT}"]
    return compare_with_program(walks) if are_there("valgrind") else []
