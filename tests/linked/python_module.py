"""The Python package over the linked library, and over a stub in its place."""
import json
import os
import sys

from linked.source_calls import MODULES, bytes_of, program_json
from linked.tools import LINKED, answers_and_notes, compare_both, expect_shown, failure, write_shown
from programs import BINDINGS, TESTS, end, expect, fail, read, run, write

FOLDER = os.path.join(BINDINGS, "python")
PROGRAM = [sys.executable, "-B", "-m", "wgsl"]
TO_DO = "set it to the folder where `make library FOLDER=..` wrote libwgsl.so"

FOUND = {"PYTHONPATH": f"{FOLDER}{os.pathsep}{TESTS}", "PYTHONDONTWRITEBYTECODE": "1"}


def check_python(top, folder, asked, wanted, standard_asked, standard_wanted):
    """The package as a program, the program of docs/USING.md, and calls. A relative folder is found from below."""
    where, name = {"WGSL_LIB": folder, **FOUND}, os.path.basename(folder)
    compare_both("Python", wanted, answers_and_notes(*PROGRAM, "--rules", "wgsl-types", asked=asked, **where))
    given = answers_and_notes(*PROGRAM, asked=standard_asked, **where)
    compare_both("Python, by WGSL's own rules", standard_wanted, given)
    below = os.path.join(top, "below", "that")
    os.makedirs(below, exist_ok=True)
    shown = write_shown("python", os.path.join(below, "shown.py"))
    expect_shown("Python", run(sys.executable, shown, where=below, WGSL_LIB=name, **FOUND), "vec3<f32>\n[0, 16, 28]\n")
    for program in ("python_calls.py", "python_errors.py"):
        print("link: Python:", run(sys.executable, os.path.join(LINKED, program), where=top, WGSL_LIB=name, **FOUND).strip())
    check_json(where)


def check_json(where):
    """With `--json` the package prints the layouts of a file, indented, and what is wrong with it, as the program does, and its
    status."""
    for path in MODULES:
        told = json.loads(program_json(bytes_of(path)))
        faults = [(kind, fault) for kind in ("error", "finding") for fault in told[f"{kind}s"]]
        for name, asked in ((path, b""), ("-", bytes_of(path))):
            notes = [f"{name}:{fault['line']}:{fault['column']}: {kind}: {fault['message']}\n" for kind, fault in faults]
            done = end(*PROGRAM, "--json", name, asked=asked, statuses=(1 if faults else 0,), **where)
            shown = json.dumps(told, ensure_ascii=False, indent=2) + "\n"
            if done.stdout.decode() != shown or done.stderr.decode() != "".join(notes):
                fail(f"in Python the layouts of {path} are {done.stdout}, and {done.stderr}")
    expect("No such file" in failure(*PROGRAM, "--json", "none", status=2, **where), "python -m wgsl doesn't say that a file isn't there")
    expect(run(*PROGRAM, "--version", **where) == f"wgsl {read('VERSION')}", "python -m wgsl says another version")
    print(f"link: Python prints the layouts of {len(MODULES)} files")


def check_python_statuses(top):
    print("link: Python:", run(sys.executable, os.path.join(LINKED, "python_statuses.py"), where=top, WGSL_LIB="stub", **FOUND).strip())
    if run(*PROGRAM, "--json", "-", asked=b"memory", statuses=(3,), where=top, WGSL_LIB="stub", **FOUND):
        fail("python -m wgsl prints layouts when memory runs out")


def write_wrong_libraries(top):
    """A folder with a file that is no library, and one with a library that has no call."""
    for name in ("no_library", "no_call"):
        os.mkdir(os.path.join(top, name))
    write("no library\n", top, "no_library", "libwgsl.so")
    run("cc", "-x", "c", "-shared", "-o", os.path.join(top, "no_call", "libwgsl.so"), "-", asked="int other;\n")


def check_python_folders(top):
    """Without the library the package and its program say in one line what to do."""
    write_wrong_libraries(top)
    again = "write the library again with `make library FOLDER=..`"
    wrong = [
        ({}, f"WGSL_LIB is not set, and there is no libwgsl.so in '{FOLDER}/wgsl': {TO_DO}"),
        ({"WGSL_LIB": ""}, f"WGSL_LIB is empty: {TO_DO}"),
        ({"WGSL_LIB": "none"}, f"WGSL_LIB is 'none', but there is no 'none/libwgsl.so' in '{top}', nor above: {TO_DO}"),
        ({"WGSL_LIB": top}, f"WGSL_LIB is '{top}', but there is no '{top}/libwgsl.so': {TO_DO}"),
        ({"WGSL_LIB": "out/libwgsl.so"}, f"WGSL_LIB is 'out/libwgsl.so', a file: {TO_DO}"),
        ({"WGSL_LIB": "no_library"}, f"{top}/no_library/libwgsl.so: file too short: {again}"),
        ({"WGSL_LIB": "no_call"}, f"{top}/no_call/libwgsl.so: undefined symbol: wgsl_answer: {again}"),
    ]
    for given, why in wrong:
        raised = failure(sys.executable, "-c", "import wgsl", where=top, **given, **FOUND)
        expect(raised.count("Traceback") == 1 and raised.splitlines()[-1] == f"ImportError: {why}", f"with {given} Python raises {raised}")
        said = failure(*PROGRAM, where=top, **given, **FOUND)
        expect(said.splitlines()[-1] == f"ImportError: {why}", f"with {given} python -m wgsl writes {said}")
    print(f"link: {len(wrong)} wrong values of WGSL_LIB are told in Python")
