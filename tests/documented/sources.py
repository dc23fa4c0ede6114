"""The sources: their files, their functions, and which of these users can name."""
import os
import re

from programs import TOP, read

FUNCTION = re.compile(r'^\s*(?:(pub)\s+|pub\(\w+\)\s+)?(?:const\s+)?(?:extern "C"\s+)?fn\s+(\w+)')
FOR_C = re.compile(r'^pub extern "C" fn (\w+)', re.MULTILINE)
OWNER = re.compile(r"^(?:impl(?:<[^>]*>)?|pub trait)\s+(.*?)\s*\{?$")
TYPE = re.compile(r"^pub (?:struct|enum|trait) (\w+)", re.MULTILINE)
EXPORT = re.compile(r"^pub use ([\w:]+?)(?:::\{([^}]*)\})?(?: as \w+)?;", re.MULTILINE)
FACADE, FOR_CALLERS_IN_C = "wgsl_types", "wgsl_c"


# The crates, each after those that it stands on.
PROMISING = tuple(re.findall(r"^(\w+)", read("crates.txt"), re.MULTILINE))


def folder_of(crate):
    return os.path.join("crates", crate, "src")


def files_of(crate):
    """The files of code of a crate, without its tests."""
    for folder, folders, files in os.walk(os.path.join(TOP, folder_of(crate))):
        folders[:] = sorted(set(folders) - {"tests"})
        for name in sorted(files):
            if name.endswith(".rt") and name != "tests.rt":
                yield os.path.relpath(os.path.join(folder, name), TOP)


def owned_lines(path):
    """Each line of a file, with the type whose functions it is among, the trait if the type implements one there, and
    whether it is among those of a trait."""
    kind = trait = ""
    in_trait = False
    for line in read(path).split("\n"):
        if match := OWNER.match(line):
            in_trait = line.startswith("pub trait")
            trait, kind = match[1].split(" for ") if " for " in match[1] else ("", match[1])
            trait, kind = trait.removeprefix("fmt::"), re.sub(r"<.*>|:.*", "", kind)
        elif line.startswith("}"):
            kind, trait, in_trait = "", "", False
        yield line, kind, trait, in_trait


def functions(path):
    """Each function of a file: the type, the trait, the name."""
    for line, kind, trait, _ in owned_lines(path):
        if match := FUNCTION.match(line):
            yield kind, trait, match[2]


def public_modules(crate):
    """The files of a crate's root and of its public modules."""
    roots = [os.path.join(folder_of(crate), name) for name in ("lib.rt", "main.rt")]
    found, left = [], [(path, folder_of(crate)) for path in roots if os.path.exists(os.path.join(TOP, path))]
    for path, folder in left:
        found.append(path)
        for name in re.findall(r"^pub mod (\w+);", read(path), re.MULTILINE):
            left.append((os.path.join(folder, name + ".rt"), os.path.join(folder, name)))
    return found


def listed(text):
    return {item.split(" as ")[0].strip() for item in text.split(",")} - {""}


def exports(files):
    """The names that the files export, and the files of the modules of other crates that they export whole."""
    names, whole = set(), set()
    for path in files:
        for place, items in EXPORT.findall(read(path)):
            for item in listed(items or place.split("::")[-1]):
                names.add(item)
                module = os.path.join(folder_of(place.split("::")[0]), item + ".rt")
                if os.path.exists(os.path.join(TOP, module)):
                    whole.add(module)
    return names, whole


def reachable(crate):
    """What users of a crate can name: names, and files of which they can name each public item."""
    if crate == FOR_CALLERS_IN_C:
        return {name for path in files_of(crate) for name in FOR_C.findall(read(path))}, set()
    files = public_modules(crate)
    names, whole = exports(files)
    files = set(files) | whole
    return names.union(*(TYPE.findall(read(path)) for path in files)), files
