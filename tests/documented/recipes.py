"""Compares the recipes of docs/MAP.md with the sources: files, names, and where that stands which was added by a recipe."""
import os
import re

from programs import TOP, read

TITLE = "\n## Where to add a rule\n"
HEADING = re.compile(r"(###+) (.*)")
LINE = re.compile(r"( *)- (.*)")
SUBJECTS = re.compile(r"(?:(?:, |, or )?`[\w./+-]*(?:/\w*|\.\w+)`)+")
QUOTED = re.compile(r"`([^`]+)`")
PATH = re.compile(r"[\w./+-]*[/.][\w./+-]*")
OUTSIDE = ("docs/", "tests/", "bench/", "bindings/", "native/", "README.md")  # every other path is one in crates/
DECLARED = {
    ".rt": r"\b(?:fn|enum|struct|trait|const|static|type|macro_rules!|impl)\s+(?:\w+::)*{}\b",
    ".antt": r"^\s*(?:[a-z]+ )*{}(?:\s[^=:\n]*)?:",
}
UNUSED = re.compile(r"^\s*(?:pub |ghost )*use .*$|^\s*(?:--|//).*$", re.MULTILINE)  # imports and comments


class Recipe:
    """What is added, names that were added so, and the lines: its own, and those of the heading above it."""

    def __init__(self, heading, shared):
        self.title, _, models = heading.partition(", as ")
        self.models, self.lines = QUOTED.findall(models), list(shared)

    def files(self):
        return tuple(file for line in self.lines for file in line.files)

    def has(self, path):
        return any(path == file or file.endswith("/") and path.startswith(file) for file in self.files())


class Line:
    """A line of a recipe: the files that it is about, names that it says to be in them, and other files that it names."""

    def __init__(self, text, folder):
        subjects = SUBJECTS.match(text)
        self.files = [placed(folder, path) for path in QUOTED.findall(subjects[0])] if subjects else []
        self.folder = self.files[0] if self.files and self.files[0].endswith("/") else ""
        quoted = QUOTED.findall(text[subjects.end() :] if subjects else text)
        self.names = [name for name in quoted if re.fullmatch(r"\w+", name)]
        self.others = [placed(self.folder, path) for path in quoted if PATH.fullmatch(path)]
        if self.folder and self.others:
            self.files, self.others = self.others, self.files

    def faults(self):
        """A file that isn't there, a name that is in none of the files, and a file that has none of the names."""
        missing = [path for path in self.files + self.others if not os.path.exists(os.path.join(TOP, path))]
        if missing:
            return [f"{path} isn't there" for path in missing]
        found = {name: [path for path in self.files if stands(name, path)] for name in self.names}
        faults = [f"{name} isn't in {' or '.join(self.files)}" for name in found if not found[name]]
        idle = [path for path in self.files if found and path not in sum(found.values(), [])]
        return faults or [f"{path} has none of {', '.join(found)}" for path in idle]


def placed(folder, path):
    """A path from the top: in the folder of the line above, or else in crates/."""
    return os.path.join(folder or ("" if path.startswith(OUTSIDE) else "crates"), path)


def read_recipes():
    """Each recipe of docs/MAP.md. The lines below a folder are about files in it."""
    section = read("docs", "MAP.md").partition(TITLE)[2].partition("\n## ")[0]
    recipes, general, above = [], None, None
    for text in re.sub(r"\n +(?![ -])", " ", section).split("\n"):
        if heading := HEADING.fullmatch(text):
            recipes.append(Recipe(heading[2], general.lines if heading[1] == "####" else []))
            general = recipes[-1] if heading[1] == "###" else general
        elif line := LINE.fullmatch(text):
            if line[1] and above in recipes[-1].lines and above.folder:
                recipes[-1].lines.remove(above)
            recipes[-1].lines.append(Line(line[2], above.folder if line[1] else ""))
            above = above if line[1] else recipes[-1].lines[-1]
    return recipes


def files_in(path):
    """The files of a folder, or the file itself."""
    if not path.endswith("/"):
        return [path]
    folders = os.walk(os.path.join(TOP, path))
    return [os.path.relpath(os.path.join(folder, name), TOP) for folder, _, names in folders for name in names]


def stands(name, path):
    """Whether a file, or one of a folder, declares a name; of a file without declarations, whether it has the word."""
    for file in files_in(path):
        form = DECLARED.get(os.path.splitext(file)[1], r"\b{}\b")
        if re.search(form.format(re.escape(name)), read(file), re.MULTILINE):
            return True
    return False


def uses(name):
    """The files of code, rules and proofs, without tests, in which a name stands outside imports and comments."""
    for crate in sorted(os.listdir(os.path.join(TOP, "crates"))):
        for part in ("src", "specs", "proofs"):
            for path in files_in(os.path.join("crates", crate, part, "")):
                if path.endswith((".rt", ".antt")) and "/tests" not in path:
                    if re.search(rf"\b{name}\b", UNUSED.sub("", read(path))):
                        yield path


def compare_recipes():
    """Each file of a recipe is there and has the names that stand beside it. Where a recipe says what was added by it, each
    file in which that stands is in the recipe."""
    recipes = read_recipes()
    faults = [] if recipes else ["there is no recipe"]
    for recipe in recipes:
        found = [fault for line in recipe.lines for fault in line.faults()] + ([] if recipe.lines else ["it has no line"])
        for name in QUOTED.findall(recipe.title):
            found += [] if any(stands(name, file) for file in recipe.files()) else [f"{name} is in none of its files"]
        for model in recipe.models:
            where = list(uses(model))
            found += [] if where else [f"{model} stands nowhere"]
            found += [f"{model} is in {path}, which it leaves out" for path in where if not recipe.has(path)]
        faults += [f"MAP.md, recipe of {recipe.title}: {fault}" for fault in found]
    return faults
