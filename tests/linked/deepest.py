"""The deepest requests and texts of every kind, on the stack that wgsl.h promises to be enough: none takes more than half of it."""
import os

from linked.library import ANSWERED, UNREADABLE
from linked.tools import LINKED, compile_c
from programs import expect, fail, run
from table import listed, texts

TABLE = "tables/stack.tsv"
LONGEST, DEEPEST = 4096, 254  # bytes of a request, and levels in one in WGSL
# How deep texts nest.
DEPTHS = range(100, 301)


def deep(head, before, behind, most):
    """The request with as many layers in each `T` as it has room for, and as may be."""
    types = head.count("T")
    count = min(most, (LONGEST - len(head) - 2 * types) // types // len(before + behind))
    return head.replace("T", before * count + "f32" + behind * count)


def requests():
    """Each request, behind the first words of the calls that answer and explain it, and whether it must be read."""
    expressions = [f"{command} {head}" for command in ("type", "resolve", "why") for head in listed(TABLE, "expression")]
    for kind, first, more, most in ("words", "", [], LONGEST), ("wgsl", "standard_", expressions, DEEPEST):
        for head in listed(TABLE, "head", kind) + more:
            for before, behind in texts(TABLE, "layer", kind):
                yield first, deep(head, before, behind, most), False
    for before, behind in texts(TABLE, "nest"):
        yield "standard_", f"type {before * DEEPEST}1{behind * DEEPEST}", True


def modules():
    """Texts that nest, and structs, each with the one before."""
    for depth in DEPTHS:
        for front, before, middle, behind, end in texts(TABLE, "text"):
            yield front + before * depth + middle + behind * depth + end
        count = depth // 15
        structs = "".join(f"struct S{at} {{ a: S{at - 1}, b: S{at - 1} }}" for at in range(1, count))
        yield f"struct S0 {{ a: f32 }}{structs}@group(0) @binding(0) var<uniform> v: S{count - 1};"


def check_stack(folder):
    """What each takes, and that it is answered, or else explained."""
    asked, deepest = list(requests()), list(modules())
    lines = [f"{first}{call} {text}" for first, text, _ in asked for call in ("answer", "explain")]
    lines += [f"{call} {text}" for text in deepest for call in ("source_layout", "module_check")]
    printed = run(compile_c(folder, os.path.join(LINKED, "stack.c"), "stack"), asked="".join(f"{line}\n" for line in lines))
    found = [tuple(map(int, line.split())) for line in printed.splitlines()]
    for line, (taken, promised, _) in zip(lines, found, strict=True):
        expect(taken <= promised / 2, f"{line:.200} takes {taken} bytes of stack")
    statuses = iter([status for *_, status in found])
    for (first, text, is_read), answered, explained in zip(asked, statuses, statuses):
        if answered > UNREADABLE - is_read or (explained == ANSWERED) != (answered == UNREADABLE):
            fail(f"{first}answer {text:.200} has the status {answered}, and is explained with {explained}")
    expect(set(statuses) == {ANSWERED}, "a text isn't answered")
    print(f"link: {len(asked)} requests and {len(deepest)} texts take {max(taken for taken, *_ in found)} bytes of stack at most")
