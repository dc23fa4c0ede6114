"""The checks of the linked library, which tests/link has built."""
import glob
import os
import random
import re

from linked import allocations, source_calls, sweeps
from linked.deepest import check_stack
from linked.library import RULED_OUT, Library
from linked.python_module import check_python, check_python_folders
from linked.statuses import check_statuses
from linked.tools import LINKED, WARNINGS, answers_and_notes, compare_both, compile_c, compile_cpp, expect_shown, write_shown
from overloads.calls import Calls, request
from overloads.facts import read_facts
from programs import ASK, BINDINGS, CHECK, TOP, are_there, expect, fail, read, run
from table import requests as listed

# How many calls by WGSL's own rules are asked, and short requests whose allocations are counted.
CALLED, COUNTED = 150, 1500
WRAPPED = ["-Wl,--wrap=malloc,--wrap=realloc,--wrap=free"]
VALGRIND = ["valgrind", "--quiet", "--leak-check=full", "--show-leak-kinds=all", "--error-exitcode=9"]
CALLS = """wgsl_answer wgsl_explain wgsl_module_check wgsl_source_code wgsl_source_layout wgsl_standard_answer wgsl_standard_explain
wgsl_version""".split()


def requests():
    """The requests of tests/lines, some that can't be read or only by WGSL's own rules, and a long answer."""
    lines = [request for request, *_ in listed()] + ["unary - const f32", "overloads cross", "why -f32"]
    lines += ["", " \t\r", "\0", " \0 ", "foo", "binary + i32", "unary - " + "atomic " * 500 + "f32"]
    lines += ["\v", " \f\u0085", "\u3000 ", "\x1c", "rank\rf32\r\tf32"]
    lines += ["size struct a\0b 1 x - - f32", "layout struct S\0 2 \0 - - f32 a\0\0b - - vec 3 f32", "call a\0 - f32"]
    lines += ["rank f32 f32" + " " * 4085, "rank f32 f32" + " " * 4084, " " * 4096, " " * 4097]
    return [line.encode() for line in lines] + [b"call \xff - f32", b"rank f32 f32\r"]


def standard_requests():
    """The same by WGSL's own rules, with the types, resolutions and explanations of some calls of tests/standard, and all lists of
    overloads."""
    formats, table = read_facts()
    called = random.Random(15).sample(Calls(table, formats).all(), CALLED)
    lines = [asked for asked, *_ in listed("standard")]
    lines += [request(command, call)[0] for call in called for command in ("type", "resolve", "why")]
    lines += [f"overloads {name}" for name in table]
    lines += ["", " \t\r", "\v", "size\rf32", "\0", "foo", "why", "type -" + "array<" * 250 + "f32" + ">" * 250, " " * 4096, " " * 4097]
    return [line.encode() for line in lines] + [b"overloads \xff", b"type -f32\r"]


def names_in(*command):
    """The names that a library lets be seen from outside."""
    listed = run("nm", "--defined-only", "--extern-only", *command)
    return sorted(line.split()[-1] for line in listed.splitlines() if " " in line)


def check_symbols(folder):
    """Nothing is seen from outside but the calls, and nothing is writable but a byte of heap.o."""
    static, shared = (os.path.join(folder, name) for name in ("libwgsl.a", "libwgsl.so"))
    for names in (names_in(static), names_in("-D", shared)):
        expect(names == CALLS, f"the library has the names {names}")
    symbols = [line.split() for line in run("nm", static).splitlines()]
    writable = [words[-1] for words in symbols if len(words) == 3 and words[1] in "BbCDdGgSsu"]
    expect(writable == ["nothing"], f"libwgsl.a has writable symbols: {writable}")
    sizes = run("size", "-t", static).splitlines()
    print(f"link: {len(CALLS)} symbols are seen, one byte is writable, {sizes[-1].split()[0]} bytes are code and constants")


def check_version(folder):
    """All versions are one. A program that has the toolchain's names links with either library, and finds the shared one."""
    version = read("VERSION").strip()
    others = re.findall(r'^VERSION = "(.*)"$', read("bindings/python/wgsl/_library.py"), re.MULTILINE)
    source = os.path.join(LINKED, "beside.c")
    built = os.path.join(folder, "beside_shared")
    run("cc", *WARNINGS, "-I", folder, "-o", built, source, "-L", folder, "-lwgsl")
    printed = run(compile_c(folder, source, "beside")) + run(built, LD_LIBRARY_PATH=folder)
    others += printed.split()
    expect(others == [version] * 5, f"the versions are {version} and {others}")
    major, minor, _ = version.split(".")
    needed = f"libwgsl.so.{f'0.{minor}' if major == '0' else major}"
    expect(needed in run("readelf", "-d", built), f"a program with the shared library doesn't need {needed}")
    print(f"link: the version is {version}, and a program that has `rattle_alloc` itself links and finds {needed}")


def check_c(folder, asked, swept, wanted):
    """The example over lines, without a leak, and the program of docs/USING.md."""
    lines = compile_c(folder, os.path.join(BINDINGS, "c", "lines.c"), "lines")
    compare_both("C", wanted, answers_and_notes(lines, asked=swept))
    if are_there("valgrind"):
        run(*VALGRIND, lines, asked=asked, statuses=(2,))
        print("link: C leaks nothing, says valgrind")
    shown = write_shown("c", os.path.join(folder, "shown.c"))
    expect_shown("C", run(compile_c(folder, shown, "shown")))


def check_cpp(folder, swept, wanted, standard_swept, standard_wanted):
    """A program over lines by either set of rules, and the JSON of modules."""
    if not are_there("c++"):
        return
    lines = compile_cpp(folder, os.path.join(LINKED, "lines.cpp"), "lines_cpp")
    compare_both("C++", wanted, answers_and_notes(lines, asked=swept))
    compare_both("C++, by WGSL's own rules", standard_wanted, answers_and_notes(lines, "standard", asked=standard_swept))
    layout = compile_cpp(folder, os.path.join(LINKED, "layout.cpp"), "layout_cpp")
    for text in source_calls.texts():
        for call in source_calls.JSON:
            if run(layout, call, asked=text) != source_calls.program_json(text, call):
                fail(f"{call} of {text[:200]} in C++ writes something else than the program")
    print(f"link: C++ writes the layouts and the check of {len(source_calls.texts())} modules")


def lines_for_c(asked, standard):
    """What the programs in C are asked."""
    texts = [b"%s %s" % (name, line) for name in (b"answer", b"explain") for line in asked]
    texts += [b"%s %s" % (name, line) for name in (b"standard_answer", b"standard_explain") for line in standard]
    texts += [b"%s %s" % (name, module) for name in (b"source_layout", b"module_check") for module in source_calls.modules()]
    texts += [b"module_check " + text for text, *_ in source_calls.CHECKED]
    return b"\n".join(texts) + b"\n"


def check_memory(folder, library, asked):
    """Each request for memory is refused in turn, and short requests make as many as allocations.py says."""
    program = compile_c(folder, os.path.join(LINKED, "refused.c"), "refused", *WRAPPED)
    total = sum(int(count) for count in run(program, asked=asked).split())
    counts = count_short(program, allocations.questions(library, COUNTED))
    print(f"link: refused: {total} requests for memory, {min(counts)} to {max(counts)} for a short request")


def count_short(program, short):
    """How often the library allocates for each of the requests: as often as it is to, or as for another one."""
    others = [wanted for _, wanted in short if isinstance(wanted, str)]
    asked = [*(question for question, _ in short), *others]
    counts = [int(count) for count in run(program, asked="".join(f"{question}\n" for question in asked).encode()).split()]
    known = dict(zip(asked, counts, strict=True))
    for question, wanted in short:
        wanted = known.get(wanted, wanted)
        expect(known[question] == wanted, f"{question} allocates {known[question]} times, not {wanted}")
    return counts


def messages():
    """How messages of refusals begin: the texts in the sources of errors, of forms, and of constructors, calls and templates; those
    of an expression with a column."""
    paths = [os.path.join("wgsl_core", "src", "error", "fields.rt")]
    paths += [os.path.join("wgsl_standard", "src", "forms", name) for name in ("refusal.rt", "array.rt")]
    paths.append(os.path.join("wgsl_calls", "src", "**", "*.rt"))
    texts = ["no overload of ", "nothing has the name ", "`", "column "]
    for path in (path for each in paths for path in glob.glob(os.path.join(TOP, "crates", each), recursive=True)):
        texts += [text.split("{")[0] for text in re.findall(r'"([^"\n]* [^"\n]*)"', read(path))]
    return tuple(text for text in texts if text)


def check_ruled_out(library, name, lines):
    """The status is 1 exactly for messages of refusals. Returns how many there are."""
    count, refusals = 0, messages()
    for line in lines:
        status, text = library.ask(name, line)
        if status <= RULED_OUT and (status == RULED_OUT) != text.decode().startswith(refusals):
            fail(f"{name} {line[:1000]} has the status {status}, and writes {text[:1000]}")
        count += status == RULED_OUT
    print(f"link: {name} rules {count} of {len(lines)} requests out")


def check_standard_text(library, swept):
    """Texts are answered by WGSL's own rules, and explained, as the program prints them. Returns what it prints."""
    wanted = answers_and_notes(*ASK, asked=swept)
    printed, notes = [], []
    for number, line in enumerate(swept.split(b"\n")[:-1], 1):
        text, why = library.text("standard_answer", line), library.text("standard_explain", line)
        if why == "no words":
            continue
        expect((text is None) != (why is None), f"{line[:1000]} is answered by {text}, and explained by {why}")
        printed.append(f"{text}\n" if why is None else f"bad line {number}\n")
        notes += [] if why is None else [f"line {number}: {why}\n"]
    compare_both("the library, by WGSL's own rules", wanted, ("".join(printed).encode(), "".join(notes).encode()))
    return wanted


def check_headers(folder):
    """Each header alone and twice, as C and C++ of old standards. Two files that include it link; no `Result` is a bool by itself."""
    strict = [*WARNINGS, "-pedantic", "-Wconversion", "-Wsign-conversion", "-I", os.path.join(BINDINGS, "c"), "-fsyntax-only"]
    languages = [["cc", "-x", "c", "-std=c99"]]
    if are_there("c++"):
        languages.append(["c++", "-x", "c++", "-std=c++11", "-Wold-style-cast"])
        cpp, built = ["c++", "-x", "c++", "-std=c++17", "-I", os.path.join(BINDINGS, "cpp")], os.path.join(folder, "header.o")
        asked = b'#include "wgsl.hpp"\n' * 2 + b"static_assert(!std::is_convertible<wgsl::Result, bool>::value, \"\");\n"
        run(*cpp, "-Wold-style-cast", *strict, "-", asked=asked)
        run(*cpp, "-I", os.path.join(BINDINGS, "c"), "-c", "-o", built, "-", asked=asked)
        run("c++", "-nostdlib", "-r", "-o", os.path.join(folder, "two_files.o"), built, built)
    for language in languages:
        run(*language, *strict, "-", asked=b'#include "wgsl.h"\n' * 2)


def lines(asked):
    return b"".join(line + b"\n" for line in asked)


def check_library(top, folder, asked, standard):
    """A library answers as the programs do, from each language."""
    swept = lines(asked + [request.encode() for request in sweeps.requests("words")])
    standard_swept = lines(standard + [request.encode() for request in sweeps.requests("wgsl")])
    wanted = answers_and_notes(*CHECK, asked=swept)
    library = Library(folder)
    source_calls.check_source(library)
    print(f"link: {sweeps.compare_source(library)} texts of WGSL with long names, lists and lines have layouts")
    check_c(folder, lines(asked), swept, wanted)
    standard_wanted = check_standard_text(library, standard_swept)
    check_ruled_out(library, "answer", asked)
    check_ruled_out(library, "standard_answer", standard)
    check_cpp(folder, swept, wanted, standard_swept, standard_wanted)
    printed = run(compile_c(folder, os.path.join(LINKED, "rooms.c"), "rooms"), asked=lines_for_c(asked, standard))
    print(f"link: {printed.decode().strip()}")
    check_stack(folder)
    check_python(top, folder, swept, wanted, standard_swept, standard_wanted)
    return library


def check_all(top, folder, native):
    """Checks the proved library in a folder, and the one of the crate in another, if it is there, out of the folder top."""
    asked, standard = requests(), standard_requests()
    library = check_library(top, folder, asked, standard)
    check_symbols(folder)
    check_version(folder)
    check_memory(folder, library, lines_for_c(asked, standard))
    check_headers(top)
    check_python_folders(top)
    check_statuses(top)
    if native:
        print("link: now the library of the crate")
        check_library(top, native, asked, standard)
