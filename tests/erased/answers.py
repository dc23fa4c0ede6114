"""The native programs beside the proved ones."""
import glob
import os

from erased.random_lines import broken_requests, random_lines
from erased.tools import answers_of, cargo
from forms.check_forms import questions as form_questions
from forms.random_requests import random_requests
from programs import TESTS, TOP, expect, fail
from table import requests

LINES = 300_000
FORMS = 30_000
PROGRAMS = (["wgsl_check"], ["wgsl", "ask"])


def compare_answers(folder):
    build_proved()
    cargo(folder, "build", "--release", "--quiet")
    native = os.path.join(folder, "target", "release")
    compare_arguments(native)
    compare_lines(native)
    compare_modules(native)
    checked = os.path.join(folder, "checked")
    # A build for one run: it checks for overflow, and the compiler takes little time.
    profile = {"OVERFLOW_CHECKS": "true", "OPT_LEVEL": "1", "LTO": "off", "CODEGEN_UNITS": "16"}
    settings = {f"CARGO_PROFILE_RELEASE_{name}": value for name, value in profile.items()}
    cargo(folder, "build", "--release", "--quiet", CARGO_TARGET_DIR=checked, **settings)
    compare_builds(native, os.path.join(checked, "release"))


def build_proved():
    """Proves and builds the programs where that isn't done, so that they note nothing of it later."""
    for name, *words in PROGRAMS:
        expect(answers_of(os.path.join(TOP, name), words=words)[2] == 0, f"./{name} wasn't built")


def compare_arguments(native):
    """What programs make of arguments: their version, and the statuses of help and of wrong use."""
    for name in ("wgsl_check", "wgsl"):
        for words in (["--version"], ["--help"], ["-h"], ["ask", "--help"], ["ask", "x"], ["x"], [""], ["--version", "x"]):
            ours, proved = (answers_of(os.path.join(top, name), words=words) for top in (native, TOP))
            expect(ours[2] == proved[2] and (words != ["--version"] or ours[0] == proved[0]), f"{name} {words}: {ours}, not {proved}")
    print("arguments have the statuses of the proved programs")


def questions():
    asked, standard = ([request for request, *_ in requests(*folder)] for folder in ([], ["standard"]))
    forms = random_requests(FORMS)
    in_wgsl = [request for request, _ in form_questions()] + forms + broken_requests(forms)
    lines = [row.encode() for row in asked + standard + in_wgsl]
    return b"\n".join(lines + random_lines(asked, LINES)) + b"\n"


def compare_lines(native):
    given = questions()
    for name, *words in PROGRAMS:
        ours, proved = (answers_of(os.path.join(top, name), given, words) for top in (native, TOP))
        compare(name, ours, proved, given)
        print(f"{name}: {given.count(10)} lines are answered as by the proved program, with notes and status")


def compare(name, ours, theirs, given):
    """Compares what two programs print, their notes and their statuses."""
    if ours == theirs:
        return
    for kind, a, b in zip(("answers", "notes"), ours, theirs):
        for number, (x, y) in enumerate(zip(a.split(b"\n"), b.split(b"\n"))):
            expect(x == y, f"{name}: line {number + 1} of the {kind} is {x!r}, not {y!r}")
    fail(f"{name}: status {ours[2]}, not {theirs[2]}, or one printed more, for {given[:200]!r}")


def compare_modules(native):
    """The layouts and the check of each module of tests/sourced, in each form, and wrong arguments."""
    folder = os.path.join(TESTS, "sourced")
    uses = [["check", *words, folder] for words in ([], ["--short"], ["--json", "--types"], ["--types"])]
    uses += [[command, *words] for command in ("check", "layout") for words in ([], ["-h"], ["--version"], ["--what"], ["-"], ["nowhere.wgsl"])]
    uses += [["check", "--stdin-filename", "a.wgsl"], ["layout", "--struct"]]
    for path in sorted(glob.glob(os.path.join(folder, "*.wgsl"))):
        uses += [["layout", path], ["layout", "--json", path], ["layout", "--struct", "Scene", path]]
    for words in uses:
        given = b"struct A { a: f32, b: vec3f }\nvar<uniform> a: A;\n"
        ours, proved = (answers_of(os.path.join(top, "wgsl"), given, words) for top in (native, TOP))
        compare(f"wgsl {' '.join(words)}", ours, proved, given)
    print(f"wgsl: {len(uses)} uses are answered as by the proved program")


def compare_builds(native, checked):
    """A build that checks for overflow answers as one that doesn't."""
    given = questions()
    for name, *words in PROGRAMS:
        ours, theirs = (answers_of(os.path.join(top, name), given, words) for top in (checked, native))
        compare(f"{name} with overflow checks", ours, theirs, given)
    print("a build that checks for overflow answers alike")
