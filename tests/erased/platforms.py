"""Other targets, where their standard library is on the machine, and an emulator that runs their programs."""
import os
import shutil
import subprocess

from erased.answers import PROGRAMS, compare, questions
from erased.tools import answers_of, cargo

TARGETS = {  # and what runs their programs; None: the library is built, and nothing is run
    "aarch64-unknown-linux-gnu": "qemu-aarch64",
    "s390x-unknown-linux-gnu": "qemu-s390x",
    "wasm32-wasip1": "wasmtime",
    "wasm32-unknown-unknown": None,
    "x86_64-pc-windows-msvc": None,
    "aarch64-apple-darwin": None,
}


def check_platforms(folder):
    for target, emulator in TARGETS.items():
        libraries = subprocess.run(["rustc", "--print", "target-libdir", "--target", target], capture_output=True, text=True)
        if not os.path.isdir(libraries.stdout.strip()):
            print(f"skipped: {target}, whose standard library isn't there")
        elif emulator and shutil.which(emulator):
            compare_emulated(folder, target, emulator)
        else:
            cargo(folder, "build", "--lib", "--target", target)
            print(f"{target}: the library is built; nothing was run")


def compare_emulated(folder, target, emulator):
    """The programs for a target answer as those of this machine. A count of 2^32 or more isn't asked of one with 32 bits."""
    cargo(folder, "build", "--release", "--target", target)
    given = b"\n".join(line for line in questions().split(b"\n") if b"42949672" not in line and b"184467440" not in line)
    suffix = ".wasm" if target.startswith("wasm") else ""
    for name in PROGRAMS:
        program = os.path.join(folder, "target", target, "release", name + suffix)
        ours = answers_of(emulator, given, [program])
        compare(f"{name} for {target}", ours, answers_of(os.path.join(folder, "target", "release", name), given), given)
    print(f"{target}: {given.count(10)} lines are answered alike")
