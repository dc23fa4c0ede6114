"""What the programs in tests share: where things are, how programs are run, asked and compared, and how faults are told."""
import os
import shutil
import subprocess
import sys

TESTS = os.path.dirname(os.path.realpath(__file__))
TOP = os.path.dirname(TESTS)
BINDINGS = os.path.join(TOP, "bindings")
CHECK, ASK = [os.path.join(TOP, "wgsl_check")], [os.path.join(TOP, "wgsl"), "ask"]
# It is started often: the program itself, without the script that builds it first, or another that WGSL names.
LAYOUT = [os.environ.get("WGSL", os.path.join(TOP, "crates", "wgsl", "out", "wgsl")), "layout"]
NAME = os.path.basename(sys.argv[0])
# What the environment of a test may have, and no test asks for.
UNSET = ["CARGO_TARGET_DIR", "CMAKE_PREFIX_PATH", "LD_LIBRARY_PATH", "PKG_CONFIG_PATH", "PYTHONPATH", "WGSL_LIB"]
PRINTED = 20  # no more faults than these are printed


def fail(why):
    sys.exit(f"{NAME}: {why}")


def expect(holds, why):
    if not holds:
        fail(why)


def read(*path):
    """A text of the repository."""
    with open(os.path.join(TOP, *path), encoding="utf-8") as file:
        return file.read()


def write(text, *path):
    """Writes a text, and gives its path."""
    with open(os.path.join(*path), "w", encoding="utf-8") as file:
        file.write(text)
    return file.name


def are_there(*programs):
    """Whether all of these are on the path."""
    missing = [program for program in programs if not shutil.which(program)]
    if missing:
        print(f"{NAME}: {', '.join(missing)} isn't on this machine: skipped")
    return not missing


def end(*command, asked="", statuses=(0,), where=None, **more):
    """A command that has ended with one of the statuses. It prints texts or bytes, as it is asked."""
    environment = {name: value for name, value in os.environ.items() if name not in UNSET}
    done = subprocess.run(command, input=asked, capture_output=True, text=isinstance(asked, str), cwd=where, env={**environment, **more})
    expect(done.returncode in statuses, f"{' '.join(command)} ended with {done.returncode}:\n{done.stdout[-3000:]}\n{done.stderr[-3000:]}")
    return done


def run(*command, **more):
    """What a command prints. It ends with status 0, if no others are given."""
    return end(*command, **more).stdout


def ask(program, lines, **more):
    """The lines that a program prints for lines. It ends with status 0, if no others are given."""
    return run(*program, asked="".join(f"{line}\n" for line in lines), **more).splitlines()


def lay_out(text, *words):
    """What `wgsl layout` prints for a text on standard input, its status and its notes."""
    given = text if isinstance(text, bytes) else text.encode()
    done = subprocess.run([*LAYOUT, *words, "-"], input=given, capture_output=True, timeout=60)
    return done.stdout.decode(errors="replace"), done.returncode, done.stderr.decode(errors="replace")


def compare(what, wanted, given):
    """Whether what is printed is wanted, which is said."""
    if wanted != given:
        pairs = zip(*(text.split(b"\n" if isinstance(text, bytes) else "\n") for text in (wanted, given)))
        fail(f"{what} prints otherwise than is wanted: {next((pair for pair in pairs if pair[0] != pair[1]), 'one has more lines')}")
    print(f"{NAME}: {what} prints what is wanted")


def tell(faults, found=None):
    """The status of a test with these faults, of which the first are printed. If there are none, what was found is."""
    for fault in faults[:PRINTED]:
        print(f"{NAME}: {fault}"[:1000], file=sys.stderr)
    if len(faults) > PRINTED:
        print(f"{NAME}: and {len(faults) - PRINTED} more", file=sys.stderr)
    if found and not faults:
        print(f"{NAME}: {found}")
    return len(faults) > 0


def run_tests(names):
    """The status of a program in tests over `wgsl layout` with these names. It builds what it tests, and runs the functions
    `test_X` for each argument X, or all."""
    known = {name[5:]: test for name, test in names.items() if name.startswith("test_")}
    for name in sys.argv[1:]:
        expect(name in known, f"there is no test {name}: {', '.join(known)}")
    if "WGSL" not in os.environ:
        run(*ASK[:1], "--version")
    return tell([fault for name in sys.argv[1:] or known for fault in known[name]() if fault])
