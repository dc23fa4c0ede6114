"""How often the library allocates for short requests: those over scalars and vectors of scalars.

By the ported rules a vector that is read or built takes one allocation; the type of a binary expression isn't built. Each list
takes one, and so does an answer that is one word or has at most 8 bytes. Other answers of at most 16 bytes take two. `common`
has three lists, the types, the types on their lines and copies of them, and if they convert a fourth, of the results.

By WGSL's own rules a request takes as many as one of the same form with `f32` for each scalar and `vec2f` for each vector."""
import random

from spelling import SCALARS
from table import listed

NAMES = {kind: listed("tables/random.tsv", of, kind) for of, kind in (("words", "unary"), ("words", "binary"), ("short", "call"), ("short", "ctor"))}
COUNTS = {"rank": 2, "unary": 1, "binary": 2, "size": 1}


def short_type(rng):
    scalar = rng.choice(SCALARS)
    return f"vec {rng.choice([2, 3, 4])} {scalar}" if rng.randrange(2) else scalar


def short_types(rng, command):
    """One to three types, of which some are the same."""
    first, count = short_type(rng), COUNTS.get(command) or rng.randrange(1, 4)
    return [first] + [first if rng.randrange(2) else short_type(rng) for _ in range(count - 1)]


def head(rng, command):
    """The words in front of the types."""
    name = [rng.choice(NAMES[command])] if command in NAMES else []
    return [command, *name] + ["-"] * (command in ("call", "ctor"))


def in_text(command, types, status, answer):
    """How often a request by the ported rules allocates, or None for messages and long answers."""
    if len(answer) > 16 or (status == 1 and command not in ("rank", "common")):
        return None
    read = sum(ty.startswith("vec") for ty in types)
    is_vector = answer.startswith("vec")
    grown = len(answer) > 8 and answer not in SCALARS
    if command == "common":
        converted = 1 + is_vector * len(types) if answer != "none" else 0
        return 2 * read + 3 + converted + 1 + grown
    built = is_vector and command != "binary"
    return read + built + (command in ("ctor", "call")) + 1 + grown


def ported(library, rng):
    """A request by the ported rules, with the number of its allocations."""
    command = rng.choice("rank common unary binary size ctor call ctor call ctor call".split())
    types = short_types(rng, command)
    request = " ".join(head(rng, command) + types)
    status, answer = library.ask("answer", request.encode())
    return f"answer {request}", in_text(command, types, status, answer.decode())


FORMS = ["type -{}", "type {} + {}", "type {} * {}", "resolve {} - {}", "type max({}, {})", "type clamp({}, {}, {})", "let x = {}"]
VECTORS = [f"vec{count}{scalar}" for count in "234" for scalar in "iufh"]


def in_wgsl(library, rng):
    """A request by WGSL's own rules, with another that is to allocate as often. Both have an answer."""
    form, first = rng.choice(FORMS), rng.choice(["f32", "i32", "u32", "f16", *VECTORS])
    operands = [first if rng.randrange(2) else rng.choice(SCALARS + VECTORS) for _ in range(form.count("{}"))]
    pair = [form.format(*types) for types in (operands, ["vec2f" if t in VECTORS else "f32" for t in operands])]
    replies = [library.ask("standard_answer", request.encode()) for request in pair]
    # The text of an answer grows once for each 8 bytes behind the first.
    is_alike = all(status == 0 for status, _ in replies) and len({(len(text) - 1) // 8 for _, text in replies}) == 1
    return f"standard_answer {pair[0]}", f"standard_answer {pair[1]}" if is_alike else None


# Modules with how often the library allocates for each.
MODULES = [("", 6), ("struct S { a: f32 }", 33), ("@group(0) @binding(0) var<uniform> a: f32;", 24)]


def questions(library, count):
    """Short requests with the number of their allocations, or with another that takes as many."""
    rng = random.Random(5)
    asked = [ask(library, rng) for ask in (ported, in_wgsl) for _ in range(count)]
    return [row for row in asked if row[1] is not None] + [(f"source_layout {module}", number) for module, number in MODULES]
