#!/usr/bin/env python3
"""Builds the wheel, for pip and as a program: `backend.py FOLDER` writes it into a folder and prints its name. It needs nothing
but the library, in the folder that WGSL_LIB names or in wgsl/, and no network. The same files make the same wheel."""
import base64
import hashlib
import os
import re
import struct
import sys
import sysconfig
import zipfile

HERE = os.path.dirname(os.path.abspath(__file__))
LIBRARY = {"darwin": "libwgsl.dylib", "win32": "wgsl.dll"}.get(sys.platform, "libwgsl.so")
# The processors that ELF numbers, and that Mach-O does.
ELF = {3: "i686", 21: "ppc64le", 22: "s390x", 40: "armv7l", 62: "x86_64", 183: "aarch64", 243: "riscv64"}
MACH = {0x1000007: "x86_64", 0x100000C: "arm64"}
OLDEST = (1980, 1, 1, 0, 0, 0)


def read(*path):
    with open(os.path.join(HERE, *path), "rb") as file:
        return file.read()


def setting(name):
    """A text of pyproject.toml."""
    return re.search(rf'^{name} = "(.*)"$', read("pyproject.toml").decode(), re.MULTILINE).group(1)


def distribution():
    return f"wgsl-{setting('version')}"


def library():
    given = os.environ.get("WGSL_LIB")
    path = os.path.join(given if given else os.path.join(HERE, "wgsl"), LIBRARY)
    if not os.path.isfile(path):
        sys.exit(f"wgsl: there is no {path}: set WGSL_LIB to the folder where `make library FOLDER=..` or cargo wrote {LIBRARY}")
    return read(os.path.abspath(path))


def tag(library):
    """Where the library can be loaded: on Linux with the glibc that has the newest symbol that it asks for, on macOS from the
    version on that it names."""
    where = re.sub(r"[-.]", "_", sysconfig.get_platform())
    if library[:4] == b"\x7fELF":
        order = "<>"[library[5] - 1]
        newest = max([(2, 17), *((int(a), int(b)) for a, b in re.findall(rb"GLIBC_(\d+)\.(\d+)", library))])
        system = "linux" if b"libc.musl" in library else "manylinux_%d_%d" % newest
        where = f"{system}_{ELF[struct.unpack_from(order + 'H', library, 18)[0]]}"
    elif library[:4] == b"\xcf\xfa\xed\xfe":
        at = 32
        for _ in range(struct.unpack_from("<I", library, 16)[0]):
            command, size = struct.unpack_from("<II", library, at)
            if command in (0x24, 0x32):  # LC_VERSION_MIN_MACOSX, LC_BUILD_VERSION
                version = struct.unpack_from("<I", library, at + (8 if command == 0x24 else 12))[0]
                where = f"macosx_{version >> 16}_{version >> 8 & 255}_{MACH[struct.unpack_from('<I', library, 4)[0]]}"
            at += size
    return f"py3-none-{where}"


def metadata():
    classifiers = re.findall(r'^    "(.* :: .*)",$', read("pyproject.toml").decode(), re.MULTILINE)
    lines = ["Metadata-Version: 2.1", f"Name: {setting('name')}", f"Version: {setting('version')}",
             f"Summary: {setting('description')}", "License: Apache-2.0"]
    lines += [f"Classifier: {classifier}" for classifier in classifiers]
    lines += [f"Requires-Python: {setting('requires-python')}", "Provides-Extra: numpy", 'Requires-Dist: numpy ; extra == "numpy"',
              "Description-Content-Type: text/markdown", "", ""]
    return "\n".join(lines).encode() + read("README.md")


def members(library, where):
    """The name and the bytes of each file of the wheel but the list of them."""
    info = f"{distribution()}.dist-info"
    found = {f"wgsl/{name}": read("wgsl", name) for name in os.listdir(os.path.join(HERE, "wgsl")) if name.endswith((".py", ".typed"))}
    found[f"wgsl/{LIBRARY}"] = library
    found[f"{info}/METADATA"] = metadata()
    found[f"{info}/WHEEL"] = f"Wheel-Version: 1.0\nGenerator: wgsl\nRoot-Is-Purelib: false\nTag: {where}\n".encode()
    for name in ("LICENSE", "NOTICE"):
        path = os.path.join(HERE, "..", "..", name)
        if os.path.isfile(path):
            found[f"{info}/{name}"] = read(path)
    return found


def build_wheel(wheel_directory, config_settings=None, metadata_directory=None):
    bytes_of_library = library()
    where, record, lines = tag(bytes_of_library), f"{distribution()}.dist-info/RECORD", []
    found = members(bytes_of_library, where)
    for name in sorted(found):
        digest = base64.urlsafe_b64encode(hashlib.sha256(found[name]).digest()).rstrip(b"=").decode()
        lines.append(f"{name},sha256={digest},{len(found[name])}\n")
    found[record] = ("".join(lines) + f"{record},,\n").encode()
    name = f"{distribution()}-{where}.whl"
    os.makedirs(wheel_directory, exist_ok=True)
    with zipfile.ZipFile(os.path.join(wheel_directory, name), "w", zipfile.ZIP_DEFLATED) as wheel:
        for member in [*sorted(set(found) - {record}), record]:
            info = zipfile.ZipInfo(member, OLDEST)
            info.compress_type = zipfile.ZIP_DEFLATED
            info.external_attr = (0o100755 if member.endswith(LIBRARY) else 0o100644) << 16
            wheel.writestr(info, found[member])
    return name


def build_sdist(sdist_directory, config_settings=None):
    raise NotImplementedError("the archive of the bindings has the sources")


if __name__ == "__main__":
    if len(sys.argv) != 2:
        sys.exit("usage: backend.py FOLDER")
    print(build_wheel(sys.argv[1]))
