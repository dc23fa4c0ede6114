"""The rows of docs/DIFFERENCES.md that say where the answers differ from WGSL's."""
import re

from programs import read

NARROWER = "Where the table is narrower than WGSL's overloads"
KEPT = "Kept from the crate, though WGSL says otherwise"
HEADS = ("Function", "Item")


def rows(*titles):
    """The cells of each row below these titles."""
    sections = read("docs", "DIFFERENCES.md").replace("\\|", "¦").split("\n## ")
    titled = {section.partition("\n")[0]: section for section in sections}
    found = []
    for title in titles:
        for row in re.findall(r"^\| (.*) \|$", titled[title], re.MULTILINE):
            cells = tuple(cell.replace("¦", "|") for cell in row.split(" | "))
            found += [cells] if cells[0] not in HEADS else []
    return found
