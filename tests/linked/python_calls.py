"""The calls of the Python package, compared with requests about the same."""
import random
import re

import wgsl
from overloads.calls import UNIVERSE, Calls, request
from overloads.facts import read_facts
from programs import expect
from spelling import SCALARS, STRUCTS

CALLED, PAIRS, LISTS = 20000, 5000, 2000


def outcome(ask, *given, **named):
    """What a call returns, or the message of a refusal without its column. What has no value is None."""
    try:
        return ask(*given, **named)
    except wgsl.Refused as refused:
        message = re.sub(r"^column \d+: ", "", str(refused))
        return None if message == "no value" else ("refused", message)


def expect_same(text, found):
    """The call gave what the request is answered."""
    wanted = outcome(wgsl.answer, text)
    wanted = None if wanted == "none" else wanted
    expect(found == wanted, f"{text} is {wanted}, and by a call {found}")


def is_spelled(call):
    """Whether no struct stands in a call: none is declared in its arguments."""
    return not any(struct in operand for operand in call[2] for struct in STRUCTS)


def compare_call(call):
    name, template, operands, constant = call
    given = [("const " if is_const else "") + operand for operand, is_const in zip(operands, constant)]
    if not name[0].isalpha():
        found = outcome(wgsl.unary, name, *given) if len(given) == 1 else outcome(wgsl.binary, name, *given)
    elif name in SCALARS or name.startswith(("vec", "mat")):
        found = outcome(wgsl.construct, name, given, template=template)
    else:
        found = outcome(wgsl.call, name, given, template)
        compare_resolution(call, given)
    expect_same(request("type", call)[0], found)


def compare_resolution(call, given):
    """A resolution is what the text says, with a parameter for each operand, and one for the template."""
    found = outcome(wgsl.resolve_call, call[0], given, call[1])
    if isinstance(found, wgsl.Resolution):
        expect(len(found.parameters) == len(given) + (call[1] is not None), f"{call[0]} of {given} is {found}")
        result = "" if found.result is None else f" -> {found.result}"
        found = f"{found.overload} ({', '.join(found.parameters)}){result}"
    expect_same(request("resolve", call)[0], found)


def compare_calls():
    formats, table = read_facts()
    asked = [call for call in Calls(table, formats).all() if is_spelled(call)]
    for call in random.Random(61).sample(asked, CALLED):
        compare_call(call)
    for name in table:
        found = wgsl.overloads(name)
        expect("\n".join(found) == wgsl.answer(f"overloads {name}"), f"the overloads of {name} are {found}")


def compare_types():
    """Ranks, common types, sizes."""
    rng, types = random.Random(62), [ty for ty in UNIVERSE if ty not in STRUCTS]
    for ty in types:
        size = wgsl.size(ty)
        expect_same(f"size {ty}", " ".join("none" if n is None else str(n) for n in size))
    for _ in range(PAIRS):
        a, b = rng.choice(types), rng.choice(types)
        rank = wgsl.rank(a, b)
        expect_same(f"rank {a}, {b}", None if rank is None else str(rank))
    for _ in range(LISTS):
        some = rng.choices(types, k=rng.randrange(4))
        expect_same(f"common {', '.join(some)}", wgsl.common(iter(some)))


def compare_source():
    """A text, and its bytes, whatever letters are in it."""
    for text in ("struct ß { a: f32 }", "struct 漢 { ö: f32 }"):
        told = wgsl.source_layout(text)
        is_named = told["structs"][0]["name"] == text.split()[1]
        expect(is_named and told == wgsl.source_layout(text.encode()), f"{text} has the structs {told['structs']}")
    for text in (b"struct a { b: f32 }\xff", "\ud800"):
        errors, faults = wgsl.source_layout(text)["errors"], wgsl.check(text).faults
        expect("UTF-8" in errors[0]["message"], f"{text!r} has the errors {errors}")
        expect([(it.kind, "UTF-8" in it.message) for it in faults] == [("syntax", True)], f"{text!r} has the faults {faults}")


def compare_check():
    """What is wrong and the types of expressions, of a text and of its bytes."""
    text, at = "/* ß漢🦀 */ const é = 1u;\nfn f() { const a = é + true; }", wgsl.Place
    plus = at(2, 23, 22), at(2, 24, 23)
    why = ("+(T, T) -> T, T: number: argument 2 is bool", "+(T, vecN<T>) -> vecN<T>, T: number: argument 2 is bool",
           "+(vecN<T>, T) -> vecN<T>, T: number: argument 1 is u32", "+(matNxM<T>, matNxM<T>) -> matNxM<T>, T: float: argument 1 is u32")
    fault = wgsl.Fault(*plus, "overload", "no overload of `+` takes (u32, bool)", tuple(wgsl.Note(*plus, each) for each in why))
    parts = [wgsl.Part(at(1, 28, 22), at(1, 30, 24), "u32", "const", None), wgsl.Part(at(2, 20, 20), at(2, 22, 21), "u32", "const", at(1, 23, 18)),
             wgsl.Part(at(2, 25, 24), at(2, 29, 28), "bool", "const", None)]
    for given, wanted in ((text, wgsl.Checked((fault,), tuple(parts))), ("", wgsl.Checked((), ())), ("struct S { a: f32 }", wgsl.Checked((), ()))):
        found = {wgsl.check(given), wgsl.check(given.encode()), wgsl.check(memoryview(given.encode()))}
        expect(found == {wanted}, f"the check of {given!r} is {found}")


def compare_rare():
    """A call with lists in its parameters, one without operands and without a value, and a name without overloads."""
    atomic = "ptr<storage, atomic<u32>, read_write>"
    expect(wgsl.resolve_call("atomicAdd", [atomic, "u32"]).parameters == (atomic, "u32"), "commas in lists separate parameters")
    found = wgsl.call("storageBarrier", iter([])), wgsl.resolve_call("storageBarrier", iter([])), wgsl.overloads("barrier")
    wanted = None, wgsl.Resolution(0, (), None), []
    expect(found == wanted, f"storageBarrier is {found[:2]}, and barrier has the overloads {found[2]}")


compare_calls()
compare_types()
compare_source()
compare_check()
compare_rare()
print(f"{CALLED} calls, {PAIRS} ranks, {LISTS} common types, as requests answer")
