"""The calls over texts of WGSL: the JSON of `./wgsl layout --json` and of `./wgsl check`, and the code of `--c` and so on."""
import glob
import json
import os
import random
import re

from linked.library import UNREADABLE
from programs import TESTS, TOP, expect, fail, run

SOURCED = os.path.join(TESTS, "sourced")
MODULES = sorted(glob.glob(os.path.join(SOURCED, "*.wgsl")))
# One in how many changed modules the program is asked about too.
COMPARED = 100
# The calls that write JSON, with the words by which the program prints the same.
JSON = {"source_layout": ["layout", "--json"], "module_check": ["check", "--json", "--types"]}

# Texts that are checked, each in one line for the programs in C. A fault is its kind and the line and the columns of its start
# and end; an expression its type, its stage, the same, and the place where its name is declared.
CHECKED = [
    (b"", [], []),
    (b"struct S { a: f32 }", [], []),
    (b"fn f() {}\rfn \xff", [("syntax", (2, 4, 4), (2, 4, 4))], []),
    ("/* ß漢🦀 */ const é = 1u;\rfn f() { const a = é + 1i; }".encode(), [("overload", (2, 23, 22), (2, 24, 23))], [
        ("u32", "const", (1, 28, 22), (1, 30, 24), None), ("u32", "const", (2, 20, 20), (2, 22, 21), (1, 23, 18)),
        ("i32", "const", (2, 25, 24), (2, 27, 26), None)]),
    (b"override o: f32; fn f(i: i32) { var v = o * 2; const c = i; }", [("type", (1, 58, 58), (1, 59, 59))], [
        ("f32", "override", (1, 41, 41), (1, 42, 42), (1, 10, 10)), ("f32", "override", (1, 41, 41), (1, 46, 46), None),
        ("AbstractInt", "const", (1, 45, 45), (1, 46, 46), None), ("i32", "runtime", (1, 58, 58), (1, 59, 59), (1, 23, 23))]),
]


def bytes_of(path):
    with open(path, "rb") as file:
        return file.read()


def json_of(library, text, call="source_layout"):
    """The JSON that a call writes of a text."""
    status, told = library.ask(call, text)
    expect(not status, f"{call} of {text[:200]} has status {status}")
    return told


def program_json(text, call="source_layout"):
    """What the program prints, with an empty name of the file."""
    told = run(os.path.join(TOP, "wgsl"), *JSON[call], "-", asked=text, statuses=(0, 1))
    return told.replace(b'{"file":"-"', b'{"file":""', 1)


def texts():
    """The modules, and the texts that are checked."""
    return [*map(bytes_of, MODULES), *(text for text, *_ in CHECKED)]


def compare_modules(library):
    for text in texts():
        for call in JSON:
            expect(json_of(library, text, call) == program_json(text, call), f"{call} of {text[:200]} in C writes something else than the program")
    return len(texts())


def place(told):
    return told and (told["line"], told["column"], told["utf16Column"])


def compare_checked(library):
    for text, faults, types in CHECKED:
        told = json.loads(json_of(library, text, "module_check"))
        found = [(it["kind"], place(it), place(it["end"])) for it in told["faults"]]
        typed = [(it["type"], it["stage"], place(it), place(it["end"]), place(it["declared"])) for it in told["types"]]
        expect((found, typed, told["file"]) == (faults, types, ""), f"the check of {text} has the faults {found} and the types {typed}")


def compare_code(library):
    """Each module in each language, and in one that there isn't."""
    for path in MODULES:
        told = json.loads(json_of(library, bytes_of(path)))
        for language, option in enumerate(("--c", "--rust", "--numpy", "--typescript")):
            status, code = library.ask("source_code", bytes_of(path), language)
            if status != bool(told["errors"]) or code != run(os.path.join(TOP, "wgsl"), "layout", option, path, asked=b"", statuses=(0, 1)):
                fail(f"the code {option} of {path} in C is another than that of the program, with status {status}")
        expect(library.ask("source_code", bytes_of(path), 4) == (UNREADABLE, b""), "there is a fifth language")


def is_in(text, told):
    """Whether a place is in the text."""
    lines = re.split(b"\r\n|[\n\v\f\r]|\xc2\x85|\xe2\x80[\xa8\xa9]", text)
    return 1 <= told["line"] <= len(lines) and 1 <= told["column"] <= len(lines[told["line"] - 1]) + 1


def compare_changed(library):
    """A module cut after each byte, and with each byte changed: what is told has places in the text."""
    module, rng = bytes_of(os.path.join(SOURCED, "every_form.wgsl")), random.Random(38)
    changed = [module[:n] for n in range(len(module) + 1)]
    for at in range(len(module)):
        for byte in {0, 255, *rng.choices(b"<>(){}@;:,*/", k=4), rng.randrange(256)}:
            changed.append(module[:at] + bytes([byte]) + module[at + 1 :])
    for index, text in enumerate(changed):
        for call in JSON:
            told = json_of(library, text, call)
            found = json.loads(told)
            faults = [*found.get("errors", ()), *found.get("findings", ()), *found.get("faults", ())]
            expect(all(is_in(text, fault) for fault in faults), f"{call} of {text} tells of a place that isn't there: {faults}")
            expect(index % COMPARED != 0 or told == program_json(text, call), f"{call} of {text} in C writes something else than the program")
    return len(changed)


def check_source(library):
    """The calls answer as the program does."""
    modules, changed = compare_modules(library), compare_changed(library)
    compare_code(library)
    compare_checked(library)
    print(f"link: {modules} modules and {changed} changed ones have the layouts and the check of the program")


# As the programs in C read them.

def modules():
    """The modules, each in one line: a carriage return ends a line of WGSL too."""
    return [bytes_of(path).replace(b"\n", b"\r") for path in MODULES]
