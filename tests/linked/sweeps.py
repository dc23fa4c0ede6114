"""Requests whose names, lists, types and lines have lengths around each power of two. None of them is out of memory: each
request is answered as the program answers it, and texts of WGSL as it is said here."""
import json

from programs import expect
from table import around_powers, swept, texts

LONGEST = 4096


def requests(kind):
    """The requests in `words` or in `wgsl`, but for those that are more than twice as long as a request may be."""
    names, lists, blanks = ([text for text, in texts("tables/swept.tsv", kind, of)] for of in ("name", "list", "blanks"))
    asked = []
    for n in around_powers(LONGEST):
        asked += [swept(text, n, letter * n) for letter in "aß漢7\0" for text in names]
        asked += [swept(text, n) for text in lists + blanks]
        asked += [swept(text, n - len("rank i32 u32")) for text in blanks]
    return [request for request in asked if len(request.encode()) <= 2 * LONGEST]


# Texts of WGSL.

def modules(n):
    """Modules with names, lists and lines of n letters, members and blanks, and how large their struct is."""
    name, blanks = "a" * n, " " * n
    yield f"struct S{name} {{ b{name}: f32 }}", 4
    yield f"alias ß{name} = f32; struct S {{ a: ß{name} }}", 4
    yield f"struct S {{ {''.join(f'a{k}: f32, ' for k in range(n + 1))} }}", 4 * n + 4
    yield f"struct S {{ a: array<f32, 0x{'0' * n}2> }}", 8
    yield f"{blanks}struct{blanks} S {{{blanks}a: f32 }}{blanks}", 4
    yield f"// {name}\n/* {'ß' * n} */ struct S {{ a: f32 }}", 4
    yield "\n" * n + "const c = 2;" * n + "struct S { a: f32 }", 4


def compare_source(library, longest=1 << 12):
    """Texts of WGSL have layouts. Returns how many there were."""
    asked = 0
    for n in around_powers(longest):
        for text, size in modules(n):
            asked += 1
            status, told = library.ask("source_layout", text.encode())
            struct = json.loads(told)["structs"][0] if status == 0 else None
            expect(struct and struct["size"] == size, f"{text[:80]} .. of {len(text)} letters replies {status}, {told[:200]}")
    return asked
