"""What C, C++ and Python make of each status, asked of a stub (stub.c) in the library's place."""
import os
import sys

from linked.python_module import FOUND, PROGRAM, check_python_statuses
from linked.tools import LINKED, WARNINGS, compile_c, compile_cpp
from programs import BINDINGS, are_there, compare, end, expect, fail, run
from table import around_powers

UNREADABLE, OUT_OF_MEMORY = 2, 3


def write_stub(top, version=None):
    """The stub as both libraries, in the folder `stub`, or in one that is named after its version."""
    folder = os.path.join(top, f"version {version}" if version else "stub")
    os.mkdir(folder)
    built = os.path.join(folder, "stub.o")
    flags = ["-I", os.path.join(BINDINGS, "c"), *([f'-DOTHER_VERSION="{version}"'] if version else [])]
    run("cc", *WARNINGS, "-fPIC", *flags, "-c", os.path.join(LINKED, "stub.c"), "-o", built)
    run("ar", "rc", os.path.join(folder, "libwgsl.a"), built)
    run("cc", "-shared", "-o", os.path.join(folder, "libwgsl.so"), built)
    return folder


def check_program(language, program, folder, **more):
    """The program over lines prints each answer, whatever its length and its bytes, and ends when memory runs out."""
    said = ["", "a\0b", "\0", " ", "ß\0漢"] + ["x" * length for length in around_powers(1 << 16)]
    asked = "".join(f"say {text}\nother\nrefuse {text}\n" for text in said)
    wanted = "".join(f"{text}\nbad line {3 * number - 1}\n{text}\n" for number, text in enumerate(said, 1))
    printed = run(*program, asked=asked.encode(), statuses=(UNREADABLE,), WGSL_LIB=folder, **more)
    compare(f"{language}, over a stub,", wanted.encode(), printed)
    for needed in ("", " 1", " 256", " 257", " 5000"):
        asked = f"say a\nmemory{needed}\nsay b\n"
        printed = run(*program, asked=asked.encode(), statuses=(OUT_OF_MEMORY,), WGSL_LIB=folder, **more)
        expect(printed == b"a\n", f"{language}, out of memory, prints {printed}")


def check_cpp_statuses(folder, headers):
    """A program in C++ over each status, and over two threads."""
    run(compile_cpp(folder, os.path.join(LINKED, "statuses.cpp"), "statuses", "-pthread", *headers))
    print("link: C++ has the status, the text and the version of a stub, beside a thread")


def check_versions(folders):
    """Python refuses a library of another major version, and before 1.0.0 of another minor one."""
    for version, folder in folders.items():
        is_taken, shared = version.startswith("0.3."), os.path.join(folder, "libwgsl.so")
        done = end(sys.executable, "-c", "import wgsl", statuses=(0, 1), WGSL_LIB=folder, **FOUND)
        said = done.stderr.splitlines()[-1:]
        if is_taken != (done.returncode == 0) or not is_taken and f"{shared} has the version {version}" not in said[0]:
            fail(f"Python, over a library of version {version}, says {said}")
    print("link: Python takes only libraries of versions that serve it")


def check_statuses(top):
    folders = {version: write_stub(top, version) for version in ("0.3.7", "0.1.0", "0.2.0", "1.3.0", "10.0.0")}
    folder, headers = write_stub(top), ["-I", os.path.join(BINDINGS, "c"), "-I", os.path.join(BINDINGS, "cpp")]
    lines = os.path.join(BINDINGS, "c", "lines.c")
    check_program("C", [compile_c(folder, lines, "lines", *headers)], folder)
    if are_there("c++"):
        check_program("C++", [compile_cpp(folder, os.path.join(LINKED, "lines.cpp"), "lines_cpp", *headers)], folder)
        check_cpp_statuses(folders["0.3.7"], headers)
    check_program("Python", PROGRAM, folder, **FOUND)
    check_python_statuses(top)
    check_versions(folders)
