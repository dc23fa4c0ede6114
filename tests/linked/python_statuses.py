"""What the Python module makes of the statuses of a stub (stub.c) in the library's place, and of what is no request."""
from concurrent.futures import ThreadPoolExecutor

import wgsl
from linked.python_raised import raised
from programs import expect

TURNS = 200


def expect_raised(kind, request, message=None, **rules):
    error = raised(kind, wgsl.answer, (request,), **rules)
    expect(message in (None, str(error)), f"{request!r:.60} raises {error!r:.200}")


def check_statuses():
    for needed in ("", " 1", " 256", " 257", " 5000"):
        expect_raised(MemoryError, "memory" + needed)
    for request in ("other", "", " "):
        expect_raised(wgsl.Unreadable, request, request)
    for status in (5, 255):
        expect_raised(RuntimeError, f"status {status}", f"wgsl.h has no status {status}")
    for text in ("", "no", "ß" * 200, "x" * 5000):
        expect_raised(wgsl.Refused, f"refuse {text}", text)
    for wrong in (b"say a", bytearray(b"say a"), None, 3, ["say a"]):
        expect_raised(TypeError, wrong, f"a request is a str, not {type(wrong).__name__}")
    expect_raised(ValueError, "say a", "'naga' is none of the rules wgsl, wgsl-types", rules="naga")
    expect_raised(MemoryError, "unexplained")


def check_refused():
    """A refusal has its request, and asks why; by the rules of wgsl-types there are no notes."""
    for command, asked in (("type a", "a"), ("resolve resolve b", "resolve b"), ("resolved a", None), ("a.type b", None), ("type: b", None), ("none", None)):
        notes = wgsl.Refused("", command, "wgsl").notes
        expect(notes == ([] if asked is None else [asked]), f"{command!r} has the notes {notes}")
    expect(wgsl.Refused("", "type a", "wgsl-types").notes == [], "the rules of wgsl-types have notes")
    try:
        wgsl.answer("refuse a", rules="wgsl-types")
    except wgsl.Refused as refused:
        expect((refused.request, refused.rules) == ("refuse a", "wgsl-types"), f"a refusal is {refused.request}, {refused.rules}")


def meet(letter):
    """How many answers of that letter are wrong, each asked for while another thread has its answer in its room. Some need a
    larger room."""
    texts = [letter * (1 + turn * 7 % 700) for turn in range(TURNS)]
    return sum(wgsl.answer("meet " + text) != text for text in texts)


def check_threads():
    with ThreadPoolExecutor(2) as pool:
        wrong = sum(pool.map(meet, "ab"))
    expect(not wrong, f"{wrong} of {2 * TURNS} answers are another thread's")


check_statuses()
check_refused()
check_threads()
print(f"{2 * TURNS} answers while another thread asks")
