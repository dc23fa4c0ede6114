"""What the tests of the linked library share: how programs are compiled, and how what they print is compared."""
import os
import re

from programs import TESTS, compare, end, expect, read, run, write

LINKED = os.path.join(TESTS, "linked")
WARNINGS = ["-O2", "-Wall", "-Wextra", "-Werror"]


def failure(*command, status=1, **more):
    """What a command that ends with that status writes to its standard error."""
    return end(*command, statuses=(status,), **more).stderr


def compile_c(folder, source, name, *flags, compiler=("cc",)):
    """A program in C, linked with the library in the folder."""
    built, library = os.path.join(folder, name), os.path.join(folder, "libwgsl.a")
    run(*compiler, *WARNINGS, "-I", folder, "-o", built, source, library, "-pthread", *flags)
    return built


def compile_cpp(*what):
    """The same in C++17, without exceptions."""
    return compile_c(*what, compiler=("c++", "-std=c++17", "-fno-exceptions", "-pedantic"))


def answers_and_notes(*command, **more):
    """What a program prints for lines of which one is bad, and what it notes on those: `line N: ` and why."""
    done = end(*command, statuses=(2,), **more)
    return done.stdout, re.sub(rb"(?m)^(?:wgsl\w*: )?line (\d+)[:,] ", rb"line \1: ", done.stderr)


def compare_both(language, wanted, given):
    """Compares the answers of two programs, and their notes."""
    compare(f"{language}, on requests,", wanted[0], given[0])
    compare(f"{language}, on what can't be read,", wanted[1], given[1])


def write_shown(language, path):
    """Writes the program in that language of docs/USING.md, or else of README.md, as it stands."""
    found = re.findall(r"^```(\w*)\n(.*?)^```$", read("docs", "USING.md") + read("README.md"), re.DOTALL | re.MULTILINE)
    return write([block for name, block in found if name == language][0], path)


def expect_shown(language, printed, wanted="vec3<f32>\n"):
    expect(printed == wanted, f"the program in {language} of the documents prints {printed}")
