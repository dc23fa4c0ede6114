"""What the documents say of themselves and of what can be counted."""
import os
import re

from programs import TOP, read

PAGES = ("README.md", "CHANGELOG.md", "CONTRIBUTING.md") + tuple(
    os.path.join("docs", name) for name in sorted(os.listdir(os.path.join(TOP, "docs"))) if name.endswith(".md")
)
LINK = re.compile(r"\[[^\]]*\]\(([^)\s]+)\)")


def prose(page):
    """A document without its blocks of code."""
    return re.sub(r"^```.*?^```$", "", read(page), flags=re.DOTALL | re.MULTILINE)


def anchors(page):
    """What a link can name of a document: its headings, as their addresses are spelled."""
    for heading in re.findall(r"^#+ (.*)$", prose(page), re.MULTILINE):
        yield re.sub(r"[^\w -]", "", heading.lower()).replace(" ", "-")


def compare_links():
    """Each link within the repository leads to a file, and to a heading of it if it names one."""
    faults = []
    for page in PAGES:
        for link in LINK.findall(re.sub(r"`[^`]*`", "", prose(page))):
            file, _, anchor = link.partition("#")
            target = os.path.normpath(os.path.join(os.path.dirname(page), file)) if file else page
            if not os.path.exists(os.path.join(TOP, target)):
                faults.append(f"{page}: nothing is at {link}")
            elif anchor and anchor not in anchors(target):
                faults.append(f"{page}: there is no heading {link}")
    return faults


def variants(path, name):
    """The number of variants of an enumeration."""
    body = re.search(rf"^pub enum {name} \{{\n(.*?)^\}}", read(path), re.DOTALL | re.MULTILINE)[1]
    return len(re.findall(r"^    [A-Z]\w*", body, re.MULTILINE))


def counts():
    """Each number that a document says: the document, the words around the number, and what it counts."""
    signatures = len(re.findall(r"^[^#(\n]+\(", read("tests", "overloads", "wgsl.txt"), re.MULTILINE))
    errors = variants("crates/wgsl_core/src/error.rt", "Error")
    return (
        ("README.md", r"the (\d+) signatures", signatures),
        ("docs/TESTS.md", r"the (\d+) signatures", signatures),
        ("docs/USING.md", r"the (\d+) named errors", errors),
    )


def compare_programs():
    """docs/TESTS.md has a heading for each program in tests/."""
    folder = os.path.join(TOP, "tests")
    there = {f"tests/{name}" for name in os.listdir(folder) if is_program(os.path.join(folder, name))}
    said = re.findall(r"^### `(tests/\w+)`$", read("docs", "TESTS.md"), re.MULTILINE)
    return [f"docs/TESTS.md: {sorted(set(said) ^ there)} is there or has a heading, not both"] if set(said) != there else []


def is_program(path):
    return os.path.isfile(path) and os.access(path, os.X_OK)


def compare_counts():
    faults = compare_programs()
    for page, words, count in counts():
        said = re.findall(words, re.sub(r"\s+", " ", read(page)))
        if said != [str(count)]:
            faults.append(f"{page}: {words!r} says {said}, but there are {count}")
    return faults
