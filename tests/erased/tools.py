"""How cargo and programs are run."""
import json
import os
import subprocess

from programs import TOP, end, expect, fail


def cargo(folder, *words, top=TOP, may_warn=True, **settings):
    """What a command of cargo prints. What it makes goes into a folder. It has no network."""
    environment = {"CARGO_TARGET_DIR": os.path.join(folder, "target"), "CARGO_TERM_COLOR": "never", **settings}
    done = end("cargo", words[0], "--offline", *words[1:], where=top, **environment)
    expect(may_warn or "warning" not in done.stderr, f"`cargo {' '.join(words)}` warns:\n{done.stderr[-4000:]}")
    return done.stdout


def made_by_build_script(folder):
    """The folder in which the build script wrote what it made of the sources."""
    for line in cargo(folder, "build", "--quiet", "--message-format=json-render-diagnostics").splitlines():
        message = json.loads(line)
        if message["reason"] == "build-script-executed":
            return message["out_dir"]
    return fail("the build script wasn't run")


def answers_of(program, given=b"", words=()):
    """What a program prints, its notes without its path, and its status."""
    done = subprocess.run([program, *words], input=given, capture_output=True)
    return done.stdout, done.stderr, done.returncode
