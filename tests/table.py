"""Reads the tables of facts, for the programs in tests."""
import glob
import os
import re

from programs import TESTS

ESCAPES = {b"n": b"\n", b"t": b"\t", b"r": b"\r", b"\\": b"\\"}


def unescaped(escape):
    """What stands for a byte, `\\xff`, for a letter, `\\u200e`, or for one of ESCAPES."""
    byte, letter, other = escape.groups()
    return bytes.fromhex(byte.decode()) if byte else chr(int(letter, 16)).encode() if letter else ESCAPES[other]


def cell(text):
    """What a cell has, as bytes: in quotes with escapes, anywhere `«3 ab»` for `ababab`."""
    if text.startswith(b'"') and text.endswith(b'"'):
        text = re.sub(rb"\\(?:x(..)|u(....)|(.))", unescaped, text[1:-1])
    return re.sub("«(\\d+) (.*?)»".encode(), lambda many: many[2] * int(many[1]), text, flags=re.DOTALL)


def rows(path, *kind):
    """The rows of a table, or those that begin with a kind, without it. Lines that begin with `# ` say what the rows below have
    in common."""
    with open(os.path.join(TESTS, path), "rb") as file:
        cells = [tuple(map(cell, line.rstrip(b"\n").split(b"\t"))) for line in file if not line.startswith((b"# ", b"#\n"))]
    kind = tuple(name.encode() for name in kind)
    found = [row[len(kind) :] for row in cells if row[: len(kind)] == kind]
    assert found, f"{path} has no rows {kind}"
    return found


def texts(path, *kind):
    """The same, whose cells are texts."""
    return [tuple(each.decode() for each in row) for row in rows(path, *kind)]


def listed(path, *kind):
    """The cells of these rows, one after another."""
    return [each for row in texts(path, *kind) for each in row]


def around_powers(most):
    """Each power of two up to that number, and the numbers beside it."""
    return sorted({2**k + step for k in range(most.bit_length()) for step in (-1, 0, 1)})


def swept(text, n, name=""):
    """A row with that many of what is swept in it, or with that name."""
    text = re.sub("«N (.*?)»", lambda many: many[1] * n, text)
    return text.replace("«N»", str(n)).replace("«NAME»", name)


def requests(*folder):
    """The requests of tests/lines, or of a folder of it, with their answers."""
    for name in sorted(glob.glob(os.path.join(TESTS, "lines", *folder, "*.txt"))):
        with open(name, encoding="utf-8") as file:
            yield from (line[:-1].split(" => ") for line in file if " => " in line)
