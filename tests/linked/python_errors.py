"""What the calls of the Python package say of arguments, of those that they don't take, of what the rules refuse, and of faults
of a shader."""
import ast
import pickle
import re
import traceback

import wgsl
from linked.python_raised import raised
from programs import expect
from table import listed, texts

# Half of a surrogate pair, which no table can have.
HALF = (wgsl.binary, ("+", "f32", "\ud800"), "right", "type \ud800")
# No text, though the third is a letter, if its halves are taken for bytes, and the fourth one of UTF-16.
SURROGATES = ["\ud800", "\udcff", "\udcc3\udc9f", "\ud83d\ude00"]


def rows(kind):
    """The rows of a kind: a call, its arguments, and what is told of these."""
    return [(getattr(wgsl, name), ast.literal_eval(given), *told) for name, given, *told in texts("tables/python.tsv", kind)]


def check_arguments():
    """What is no argument is told by its name."""
    wrong_types, misread = rows("type"), [*rows("misread"), HALF]
    for ask, given, message in wrong_types:
        error = raised(TypeError, ask, given)
        expect(str(error) == message, f"{ask.__name__}{given!r} raises {error!r}, not {message!r}")
    for ask, given, argument, request in misread:
        error = raised(wgsl.Unreadable, ask, given)
        why = re.sub(r"^column \d+: ", "", str(raised(wgsl.Unreadable, wgsl.answer, (request,))))
        expect(str(error) == f"{argument}: {why}", f"{ask.__name__}{given!r:.90} raises {error!r:.200}, not {argument}: {why}")
        expect(str(raised(wgsl.Unreadable, wgsl.answer, (error.request,))).endswith(why), f"{error!r} has the request {error.request!r}")
        expect("column" not in "".join(traceback.format_exception(type(error), error, None)), f"{error!r} is printed with a column")
    error = raised(ValueError, wgsl.source_code, ("", "C"))
    expect(str(error) == "there is no language 'C': it is c, rust, numpy, typescript", f"a language that isn't there raises {error!r}")
    for name in SURROGATES:
        raised(wgsl.Unreadable, wgsl.answer, (f"size struct {name} {{ a: f32 }}",))
    long = raised(wgsl.Unreadable, wgsl.common, (["f32"] * 1100,))
    expect(str(long) == str(raised(wgsl.Unreadable, wgsl.answer, ("size" * 1025,))), f"a long request raises {long!r}")
    return len(wrong_types) + len(misread)


def check_operands():
    """An operand may be a literal or an expression. Each blank of WGSL may stand around a type and in its list."""
    for blank in "\t\n\v\f\r \x85\u200e\u200f\u2028\u2029":
        size = wgsl.size("".join(f"{blank}{token}" for token in ("array", "<", "vec3f", ",", "4", ">", "")))
        expect(size == (64, 16), f"with {blank!r} between tokens a size is {size}")
    for ask, given, wanted in rows("answer"):
        expect(ask(*given) == ast.literal_eval(wanted), f"{ask.__name__}{given!r} is {ask(*given)}, not {wanted}")
    expect("(bool)" in str(raised(wgsl.Refused, wgsl.unary, ("-", "f32 == 1"))), "an operator binds stronger than that of its operand")
    component = raised(wgsl.Refused, wgsl.unary, ("&", "ref<function, vec2f, read_write>.x"))
    expect("component" in str(component) and component.notes == [], f"& of a component raises {component!r}")


def check_refused():
    """A refusal has its notes, and a traceback prints them; what has no overloads has none."""
    for request, why in texts("tables/python.tsv", "notes"):
        refused, wanted = raised(wgsl.Refused, wgsl.answer, (request,)), wgsl.answer(why).split("\n")
        expect(refused.notes == wanted == refused.__notes__, f"{request!r} has the notes {refused.notes}")
        if hasattr(refused, "add_note"):
            refused.add_note("as a note of the caller")
            printed = "".join(traceback.format_exception(refused))
            expect(printed.endswith("\n".join([f"wgsl.requests.Refused: {refused}", *wanted, "as a note of the caller", ""])), f"a traceback is {printed}")
    for request in listed("tables/python.tsv", "no notes"):
        refused = raised(wgsl.Refused, wgsl.answer, (request,))
        expect(refused.notes == refused.__notes__ == [], f"{request[:90]!r} has the notes {refused.notes}")
    expect(not wgsl.Refused("", "unary ! f32", "wgsl-types").__notes__, "the rules of wgsl-types have notes")
    refused = raised(wgsl.Refused, wgsl.binary, ("+", "f32", "vec3<bool>"))
    expect(str(refused) == "no overload of `+` takes (f32, vec3<bool>)" and len(refused.notes) == 4, f"a call raises {refused!r}")


def check_copies():
    """What is raised in another process has the same text and fields here."""
    raises = [(wgsl.Refused, wgsl.answer, ("unary ! f32", "wgsl-types")), (wgsl.Refused, wgsl.unary, ("!", "f32"))]
    raises += [(wgsl.Unreadable, wgsl.size, ("int",)), (wgsl.SourceError, wgsl.dtype, ("struct A { a: Nowhere } struct B { a: f32 }", "B"))]
    for kind, ask, given in raises:
        error = raised(kind, ask, given)
        copy = pickle.loads(pickle.dumps(error))
        expect((type(copy), str(copy), vars(copy)) == (kind, str(error), vars(error)), f"{error!r} is copied as {copy!r}")


def check_aliases():
    """An alias is its name with a template, as a type, as a constructor, and in what is refused."""
    scalars, asked = {"i": "i32", "u": "u32", "f": "f32", "h": "f16"}, []
    asked += [(f"vec{n}", s, [scalars[s]] * int(n)) for n in "234" for s in scalars]
    asked += [(f"mat{c}x{r}", s, [f"vec{r}<{scalars[s]}>"] * int(c)) for c in "234" for r in "234" for s in "fh"]
    for name, letter, operands in asked:
        alias, scalar = name + letter, scalars[letter]
        found = wgsl.construct(alias, operands)
        expect(found == f"{name}<{scalar}>" == wgsl.common([alias, found]), f"{alias} of {operands} makes {found}")
        refused = [raised(wgsl.Refused, wgsl.construct, given) for given in ((alias, ["sampler"]), (name, ["sampler"], scalar))]
        expect(str(refused[0]) == str(refused[1]) and refused[0].notes == refused[1].notes != [], f"{alias} of a sampler raises {refused[0]!r}")
    for given in (("vec3f", ["f32"], "f32"), ("mat2x2i", []), ("vec5f", []), ("vec3fh", []), ("avec3f", [])):
        refused = raised(wgsl.Refused, wgsl.construct, given)
        expect(f"`{given[0]}" in str(refused), f"{given[0]} raises {refused!r}")


def check_source():
    """A fault of the shader is told with its line, its column and the reason, and has the layouts of the rest."""
    text = "struct A { a: f32 }\nstruct B { ü: Nowhere }\nstruct C { b: B }\nother"
    told = wgsl.source_layout(text)
    first, (line, column) = told["errors"][0]["message"], (2, 16)
    for ask in (wgsl.source_dtypes, lambda text: wgsl.dtype(text, "A"), lambda text: wgsl.dtype(text, "B"), lambda text: wgsl.dtype(text, "C")):
        for given in (text, text.encode()):
            error = raised(wgsl.SourceError, ask, (given,))
            expect(str(error) == f"line {line}, column {column}: {first}, and 1 more", f"a fault is {error!r}")
            found = error.line, error.column, error.reason, error.errors, error.layouts
            expect(found == (line, column, first, told["errors"], told), f"a fault has {found}")
    error = raised(wgsl.SourceError, wgsl.dtype, ("struct B { a: Nowhere }", "B"))
    expect(str(error) == f"line 1, column 15: {first}" and isinstance(error, ValueError), f"one fault is {error!r}")
    expect(raised(wgsl.SourceError, wgsl.source_code, (text, "c")).errors == told["errors"], "code of a text with faults")
    expect("static_assert(sizeof(struct A) == 4" in wgsl.source_code(b"struct A { a: f32 }", "c"), "code of a struct")
    expect("'java'" in str(raised(ValueError, wgsl.source_code, (text, "java"))), "a language that there isn't")
    expect(wgsl.source_layout(bytearray(text.encode())) == told == wgsl.source_layout(memoryview(text.encode())), "bytes have other layouts")


def check_dtypes():
    """With numpy: the rest of a text with a fault has dtypes, and a struct that isn't there is a KeyError."""
    try:
        import numpy
    except ImportError:
        return "without numpy"
    error = raised(wgsl.SourceError, wgsl.source_dtypes, ("struct A { a: vec3f, b: f32 } struct B { a: Nowhere }",))
    light = numpy.zeros(2, wgsl.dtype(error.layouts, "A"))
    expect(light.nbytes == 32 and list(wgsl.source_dtypes(error.layouts)) == ["A"], "the rest of a text has other dtypes")
    for given in (error.layouts, "struct A { a: f32 }", b"", {"structs": []}):
        expect(raised(KeyError, wgsl.dtype, (given, "B")).args == ("B",), "a struct that isn't there has another error")
    return "and dtypes"


count = check_arguments()
check_operands()
check_refused()
check_copies()
check_aliases()
check_source()
print(f"{count} wrong arguments are told by name, faults of a shader by line, {check_dtypes()}")
