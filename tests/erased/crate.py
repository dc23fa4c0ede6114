"""The crate as cargo sees it: its tests, its warnings, what it depends on, and its package."""
import glob
import json
import os
import re
import subprocess
import tarfile

from erased.tools import cargo
from programs import TOP, ask, end, expect, fail, read, write

MANIFEST = """[package]
name = "user"
version = "0.0.0"
edition = "2021"

[dependencies]
{dependency}

[workspace]
"""


def check_crate(folder):
    has_no_dependency(folder)
    has_no_unsafe_code()
    cargo(folder, "test", "--quiet", may_warn=False)
    print("tests and examples of the crate passed")
    check_features(folder)
    check_oldest(folder)
    cargo(folder, "doc", "--no-deps", RUSTDOCFLAGS="-D warnings")
    for tool, *words in [("clippy", "--all-targets", "--", "-D", "warnings"), ("fmt", "--check")]:
        if subprocess.run(["cargo", tool, "--version"], capture_output=True).returncode != 0:
            print(f"skipped: `cargo {tool}`, which isn't there")
        elif tool == "fmt":
            end("cargo", "fmt", "--check", where=TOP)
        else:
            cargo(folder, tool, *words)
            print("clippy has no warnings")


def check_features(folder):
    """The crate is built with the features of each set. With none its tests pass, and a program for wgsl-types keeps each `use`."""
    for features in ("standard", "text"):
        cargo(folder, "build", "--no-default-features", "--features", features, may_warn=False)
    cargo(folder, "test", "--quiet", "--no-default-features", may_warn=False)
    program = read("native", "examples", "front_end.rs").replace("wgsl_types_proved", "wgsl_types")
    ported = f'wgsl_types = {{ package = "wgsl-types-proved", path = "{TOP}", default-features = false }}'
    if run_user(folder, "ported", ported, program) != cargo(folder, "run", "--quiet", "--example", "front_end"):
        fail("the example `front_end` prints something else as a program for wgsl-types")
    print("the crate is built with each set of features")


def check_oldest(folder):
    """The oldest compiler that the crate names, if it is on the path, builds all, and its tests pass."""
    [oldest] = {re.search(r'^rust-version = "(.*)"$', read(*path), re.MULTILINE)[1] for path in (["Cargo.toml"], ["native", "c", "Cargo.toml"])}
    for at in os.environ["PATH"].split(os.pathsep):
        rustc = os.path.join(at, "rustc")
        if os.path.exists(rustc) and subprocess.check_output([rustc, "--version"], text=True).startswith(f"rustc {oldest}."):
            target = os.path.join(folder, "oldest")
            cargo(folder, "test", "--quiet", "--workspace", "--all-targets", CARGO_TARGET_DIR=target, RUSTC=rustc)
            return print(f"rustc {oldest}, the oldest that the crate names, builds all, and its tests pass")
    return print(f"skipped: rustc {oldest}, the oldest that the crate names, which isn't on the path")


def has_no_dependency(folder):
    packages = json.loads(cargo(folder, "metadata", "--format-version=1"))["packages"]
    others = [package["name"] for package in packages if package["source"]]
    expect(not others, f"the packages here depend on {others}")


def has_no_unsafe_code():
    expect("#![forbid(unsafe_code)]" in read("native", "lib.rs"), "native/lib.rs doesn't forbid unsafe code")


def run_user(folder, name, dependency, program):
    """What a user's program prints."""
    user = os.path.join(folder, name)
    os.makedirs(os.path.join(user, "src"))
    write(MANIFEST.format(dependency=dependency), user, "Cargo.toml")
    write(program, user, "src", "main.rs")
    return cargo(folder, "run", "--quiet", top=user)


def check_first_page(folder):
    """The program that README.md shows prints what stands below it."""
    shown = re.search(r"^```rust\n(.*?)^```\n\nIt prints (.*?)\. ", read("README.md"), re.DOTALL | re.MULTILINE)
    program, printed = shown.groups()
    lines = run_user(folder, "user", f'wgsl-types-proved = {{ path = "{TOP}" }}', program).splitlines()
    expect(lines == re.findall(r"`([^`]*)`", printed), f"the program of README.md prints {lines}")
    print("the program of README.md prints what it says")


def check_package(folder):
    """What cargo packages is built from that file alone, and answers."""
    cargo(folder, "package", "--allow-dirty", "--no-verify")
    [package] = glob.glob(os.path.join(folder, "target", "package", "*.crate"))
    with tarfile.open(package) as archive:
        archive.extractall(os.path.join(folder, "packaged"), filter="data")
    [top] = glob.glob(os.path.join(folder, "packaged", "*"))
    settings = {"CARGO_TARGET_DIR": os.path.join(folder, "from_package")}
    cargo(folder, "build", "--quiet", top=top, **settings)
    program = os.path.join(folder, "from_package", "debug", "wgsl_check")
    answers = ask([program], ["binary + AbstractInt vec 3 f32"])
    expect(answers == ["vec3<f32>"], f"the program that was built from the package printed {answers}")
    print(f"{os.path.basename(package)} is built from itself alone, {os.path.getsize(package) // 1024} KiB")
