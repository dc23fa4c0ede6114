#!/usr/bin/env -S python3 -B
"""Writes docs/REFERENCE.md from the sources: what users can name, with its comment and its clauses, and the definitions that the
clauses cite, with theirs. tests/documents compares the document with what this makes."""
import os
import re
import sys

sys.path.insert(1, os.path.dirname(os.path.dirname(os.path.abspath(__file__))))
from documented.sources import EXPORT, FACADE, FUNCTION, OWNER, PROMISING  # noqa: E402, beside tests/documents
from documented.sources import files_of, folder_of, listed, owned_lines, public_modules, reachable  # noqa: E402
from programs import TOP, read, write  # noqa: E402

PAGE = os.path.join("docs", "REFERENCE.md")
ITEM = re.compile(r"^\s*pub (?:const )?(struct|enum|trait|const|static|type) (\w+)")
CLAUSE = re.compile(r"(requires|ensures)\*?\s*(\w*)\s*\{(.*)\}[;,]?$")
GHOST = re.compile(r"ghost\s+(\w+)\s*[:=]\s*\{(.*)\};$")
PASSED = re.compile(r"^pub use Rattle\.(\w+)\.specs\.([\w.]+)\.\{([^}]*)\}$", re.MULTILINE)
CITED = re.compile(r"ghost use Rattle\.(\w+)\.specs\.([\w.]+)\.\{([^}]*)\};")
DEFINED = re.compile(r"((?:^ *--.*\n)*)^ *(?:[a-z]+ )*pub (?:[a-z]+ )?(\w+)(?= |:|$)", re.MULTILINE)
HEAD = """\
# Reference

`tests/documented/reference.py` writes this file from the sources: run it after a change of a comment or a clause.

It has what users can name: what the public modules of each crate have, under the module of `wgsl_types` that exports it, or
else under its own; and the calls from C. What only the inside of a crate can name is left out: private modules, and items that
are `pub(crate)`. Below each item are its clauses. A caller must ensure `requires`; the others hold once the call has returned
`result`. `x.new` is what the call leaves in a parameter `x`; `x.now`, `x.old`, `x.entry` and `x.value` are what is there when
it begins. Beside its clauses each function is safe and returns: no index out of range, no overflow, no lossy cast, no endless
loop. A call that may allocate may also report out of memory, unless a clause `never_out_of_memory` excludes it.

The definitions that clauses cite stand at the end. The README's first promise is `IsStandardAnswer`; `Headline.antt` has the next
four on one page, but for constructors: `crates/wgsl_calls/specs/Constructors.antt`.
"""


class Item:
    """A public item, or an implementation of a trait: the type that it belongs to, its name, how it is written, its comment, its
    clauses, and the file."""

    def __init__(self, path, kind, name, title, comment):
        self.path, self.kind, self.name, self.title, self.comment, self.clauses = path, kind, name, title, comment, []

    def lines(self):
        yield f"- `{self.title}`" + (": " + "\n  ".join(self.comment).replace("\n  \n", "\n\n") if self.comment else "")
        for label, text in self.clauses:
            yield f"  - **{label}**: `{text}`" if label else f"  - `{text}`"


def text_from(lines, at):
    """The text that begins in a line and ends where its braces are closed."""
    text = lines[at].strip()
    while text.count("{") > text.count("}") and at + 1 < len(lines):
        at += 1
        text += " " + lines[at].strip()
    return text


def signature(lines, at):
    """A function's name, its parameters and its result."""
    head = ""
    while not re.match(r"\s*(where|ensures|requires|\{)", lines[at]) and not head.endswith(("{", ";")):
        head += " " + lines[at].strip()
        at += 1
    return re.sub(r"^.*?\bfn ", "", head.rstrip(" {;")).replace("( ", "(").replace(", )", ")")


def items(path):
    """The public items of a file, and what implements traits."""
    owned, found, comment, owner, item = list(owned_lines(path)), [], [], None, None
    lines, prefix = [line for line, *_ in owned], ""
    for at, (line, kind, trait, in_trait) in enumerate(owned):
        word = line.strip()
        if word.startswith(("///", "#[")):
            comment += [word[3:].removeprefix(" ")] if word.startswith("///") else []
            continue
        made = None
        if OWNER.match(line) and trait:
            owner = made = Item(path, kind, "", f"{trait}` of `{kind}", comment)
        elif match := FUNCTION.match(line):
            prefix = f"{match[2]}: " if trait else ""
            item = owner if trait else None
            if match[1] and not trait or in_trait:
                item = made = Item(path, kind, match[2], f"{kind}::" * bool(kind) + signature(lines, at), comment)
        elif match := ITEM.match(line):
            kind = kind if kind != match[2] else ""
            owner = made = Item(path, kind, match[2], f"{match[1]} {kind}::{match[2]}".replace(" ::", " "), comment)
        elif (match := GHOST.match(text_from(lines, at))) and owner and kind:
            owner.clauses.append((match[1], match[2].strip()))
        elif (match := CLAUSE.match(text_from(lines, at))) and item:
            label = f"{prefix}{match[2]}" if match[2] else prefix.rstrip(": ")
            item.clauses.append((f"requires {label}".strip() if match[1] == "requires" else label, match[3].strip()))
        found += [made] if made else []
        comment = []
    return found


def module_file(place):
    """The file of a module."""
    crate, *modules = place.split("::")
    return os.path.join(folder_of(crate), *modules or ["lib"]) + ".rt"


def module_of(path):
    crate, _, *modules = path.removesuffix(".rt").split(os.sep)[1:]
    return "::".join([crate] + [name for name in modules if name not in ("lib", "main")])


def facade():
    """Each name that the facade exports, with the module that exports it and the file that it names; None if it is a whole module."""
    for path in public_modules(FACADE):
        for place, names in EXPORT.findall(read(path)):
            for name in listed(names or place.split("::")[-1]):
                whole = module_file(f"{place}::{name}" if names else place)
                alias = re.search(rf"\b{name} as (\w+)", read(path))
                if os.path.exists(os.path.join(TOP, whole)):
                    yield None, f"{FACADE}::{alias[1] if alias else name}", whole
                else:
                    yield name, module_of(path), module_file(place if names else place.rpartition("::")[0])


def imported_from(item, exported):
    """The module of the facade that exports an item, or the type that it belongs to; None if none does."""
    name, crate = item.kind or item.name, folder_of(item.path.split(os.sep)[1])
    near = [module for known, module, file in exported if file == item.path and known in (name, None)]
    far = [module for known, module, file in exported if file.startswith(crate + os.sep) and known == name]
    return max(near or far, key=len, default=None)


def owed(exported):
    """The items that users can name, and what implements traits for them and promises something."""
    for crate in PROMISING:
        names, files = reachable(crate)
        for path in files_of(crate):
            for item in items(path):
                is_named = item.kind in names if item.kind else item.name in names or path in files
                if is_named and (item.clauses or item.name):
                    yield item


def listed_as(names):
    """The names of an import, each with the one that it has here."""
    for name in names.split(","):
        name, _, alias = name.strip().partition(" as ")
        yield name, alias or name


def declared(crate, module, name):
    """The file of a definition, and its name there: a file may pass on what others declare. None if the repository has none."""
    file = os.path.join("crates", crate, "specs", *module.split(".")) + ".antt"
    if not os.path.exists(os.path.join(TOP, file)):
        return None
    for place in PASSED.findall(read(file)):
        for own, here in listed_as(place[2]):
            if here == name:
                return declared(*place[:2], own)
    return file, name


def cited(item):
    """The definitions that an item's clauses cite: file and name."""
    words = set(re.findall(r"\w+", " ".join(text for _, text in item.clauses)))
    for crate, module, names in CITED.findall(read(item.path)):
        for name, here in listed_as(names):
            if here in words and (found := declared(crate, module, name)):
                yield found


def first_comment(path):
    """What a file says in its first lines."""
    head = re.match(r"(?:(?://!?|--) ?.*\n)*", read(path))[0]
    return re.sub(r"^(//!?|--) ?", "", head, flags=re.MULTILINE).strip()


def linked(path):
    return f"[`{path}`](../{path})"


def definitions(found):
    """The definitions that clauses cite, by their files."""
    for file in sorted({file for file, _ in found}):
        yield f"\n{linked(file)}: {first_comment(file)}\n"
        names = {name for at, name in found if at == file}
        for comment, name in DEFINED.findall(read(file)):
            if name in names:
                said = re.sub(r"^ *-- ?", "  ", comment, flags=re.MULTILINE).strip()
                yield f"- `{name}`" + (f": {said}" if said else "")


def made():
    """The document."""
    exported, sections, found = list(facade()), {}, set()
    for item in owed(exported):
        sections.setdefault(imported_from(item, exported) or module_of(item.path), []).append(item)
        found.update(cited(item))
    lines = [HEAD]
    for module in sorted(sections, key=lambda name: (not name.startswith(FACADE), name if name.startswith(FACADE) else "")):
        lines.append(f"\n## `{module}`")
        file = None
        for item in sections[module]:
            if item.path != file:
                file = item.path
                lines.append(f"\n{linked(file)}: {first_comment(file)}\n")
            lines += item.lines()
    return "\n".join([*lines, "\n## Definitions", *definitions(found)]) + "\n"


def compare_reference():
    """docs/REFERENCE.md is what the sources make, and each public item has a comment."""
    faults = [f"{item.path}: `{item.title}` has no comment" for item in owed(list(facade())) if item.name and not item.comment]
    if read(PAGE) != made():
        faults.append("docs/REFERENCE.md isn't what the sources make: run `tests/documented/reference.py`")
    return faults


if __name__ == "__main__":
    write(made(), TOP, PAGE)
