"""Requests, and calls that ask one each."""
from __future__ import annotations

import re
from dataclasses import dataclass
from functools import cached_property
from typing import TYPE_CHECKING, Any, Iterable, NamedTuple

from ._arguments import Argument, argument, list_of, operand_of, operator_of, type_of, without_place
from ._library import ANSWERED, REFUSED, ask

# The calls that answer and explain, by the rules that they ask.
RULES = {"wgsl": ("wgsl_standard_answer", "wgsl_standard_explain"), "wgsl-types": ("wgsl_answer", "wgsl_explain")}

# Where a request asks for the type of an expression.
_ASKS = re.compile(r"\b(?:type|resolve)(?=[ \t\r])")


class Unreadable(ValueError):
    """The request isn't what can be asked, is blank, isn't one line of text, or has more than 4096 bytes.

    Its text says why: for a request the column in bytes, and what was expected there; for any other call the argument, and what
    is wrong with it. `request` is the request.

    >>> for ask in (lambda: answer("type -vec3<f33>"), lambda: binary("+", "f32", "vec3<f33>")):
    ...     try:
    ...         ask()
    ...     except Unreadable as unreadable:
    ...         print(unreadable)
    column 12: `f33` is no type; did you mean `f32`?
    right: `f33` is no type; did you mean `f32`?
    """

    def __init__(self, why: str, request: str) -> None:
        super().__init__(why)
        self.request = request

    def __reduce__(self) -> tuple[Any, ...]:
        return type(self), (str(self), self.request)


class Refused(Exception):
    """The rules give an expression no type. Its text is their message, `request` the request. From Python 3.11 on a traceback has
    the notes too.

    >>> try:
    ...     binary("+", "vec3<f32>", "vec3<i32>")
    ... except Refused as refused:
    ...     print(refused)
    ...     print(refused.notes[0])
    no overload of `+` takes (vec3<f32>, vec3<i32>)
    +(vecN<T>, vecN<T>) -> vecN<T>, T: number: argument 2 is vec3<i32>
    """

    def __init__(self, message: str, request: str, rules: str) -> None:
        super().__init__(message)
        self.request, self.rules = request, rules

    def __reduce__(self) -> tuple[Any, ...]:
        return type(self), (str(self), self.request, self.rules)

    @property
    def notes(self) -> list[str]:
        """For each overload of WGSL's own why it doesn't take the operands. There are none by the rules of wgsl-types, nor of what
        has no overloads, as members and declarations."""
        try:
            return _lines(answer(_ASKS.sub("why", self.request, count=1))) if self.rules == "wgsl" else []
        except (Refused, Unreadable):
            return []

    if not TYPE_CHECKING:  # whose `__notes__` is a list that can be set

        @cached_property
        def __notes__(self):
            """What a traceback prints, asked for when it does. `add_note` adds to it."""
            return self.notes


def _lines(text: str) -> list[str]:
    return [] if text == "none" else text.split("\n")


def _value(text: str) -> str | None:
    return None if text == "none" else text


def _number(text: str) -> int | None:
    return None if text == "none" else int(text)


def answer(request: str, rules: str = "wgsl") -> str:
    """Answers one request: in WGSL by WGSL's own rules, or in words by those of the Rust crate `wgsl-types`.

    Raises Refused if the rules refuse the expression, Unreadable, or MemoryError if memory runs out.

    >>> answer("type AbstractInt + vec3<f32>"), answer("let x: f32 = vec3f.x"), answer("binary + f32 f32", rules="wgsl-types")
    ('vec3<f32>', 'f32', 'f32')
    """
    if not isinstance(request, str):
        raise TypeError(f"a request is a str, not {type(request).__name__}")
    if rules not in RULES:
        raise ValueError(f"{rules!r} is none of the rules {', '.join(RULES)}")
    asks, explains = RULES[rules]
    # A lone surrogate is passed as bytes that aren't UTF-8, which the library doesn't read.
    encoded = request.encode("utf-8", "surrogatepass")
    status, text = ask(asks, encoded)
    if status == REFUSED:
        raise Refused(text, request, rules)
    if status != ANSWERED:
        raise Unreadable(ask(explains, encoded)[1], request)
    return text


def _read(arguments: Iterable[Argument]) -> None:
    """Raises Unreadable for the first argument that can't be read alone."""
    for given in arguments:
        try:
            answer(given.alone)
        except Unreadable as unreadable:
            raise Unreadable(f"{given.name}: {without_place(str(unreadable))}", unreadable.request) from None
        except Refused:
            pass


def _asked(request: str, *arguments: Argument) -> str:
    """The answer to a request that is made of arguments. If it can't be read, Unreadable names the argument."""
    _read(given for given in arguments if given.name == "operator" or not given.is_word())
    try:
        return answer(request)
    except Refused as refused:
        raise Refused(without_place(str(refused)), request, refused.rules) from None
    except Unreadable as unreadable:
        _read(arguments)
        why, told = without_place(str(unreadable)), str(unreadable)
        raise Unreadable(why if why == told else f"{arguments[0].name}: {why}", request) from None


def _called(command: str, name: str, arguments: Iterable[str], template: str | None) -> str:
    """The answer about a call."""
    callee = argument("name", "a name", name, "fn %s() type bool")
    listed = [] if template is None else [type_of("template", template)]
    given = list_of(operand_of, "arguments", "argument", arguments)
    text = callee.text + "".join(f"<{ty.text}>" for ty in listed)
    return _asked(f"{command} {text}({', '.join(operand.bracketed for operand in given)})", callee, *listed, *given)


def unary(operator: str, operand: str) -> str:
    """The type of a unary expression. An operand is a type as WGSL spells it, with `const ` in front of a const-expression; a
    literal; or an expression of these.

    >>> unary("-", "vec3<f32>"), unary("&", "ref<function, i32, read_write>")
    ('vec3<f32>', 'ptr<function, i32, read_write>')
    """
    sign, x = operator_of(operator), operand_of("operand", operand)
    return _asked(f"type {sign.text} {x.bracketed}", sign, x)


def binary(operator: str, left: str, right: str) -> str:
    """The type of a binary expression.

    >>> binary("*", "mat4x3f", "vec4<f32>"), binary("<<", "const AbstractInt", "u32")
    ('vec3<f32>', 'i32')
    """
    sign, x, y = operator_of(operator), operand_of("left", left), operand_of("right", right)
    return _asked(f"type {x.bracketed} {sign.text} {y.bracketed}", sign, x, y)


def call(name: str, arguments: Iterable[str], template: str | None = None) -> str | None:
    """The type of the call of a built-in function, None if it has no value.

    >>> call("clamp", ["vec3f", "vec3f", "vec3f"]), call("bitcast", ["f32"], template="i32"), call("storageBarrier", [])
    ('vec3<f32>', 'i32', None)
    """
    return resolve_call(name, arguments, template).result


def construct(name: str, arguments: Iterable[str], template: str | None = None) -> str:
    """The type that a constructor makes. Its name may be an alias that WGSL predeclares, as `vec3f`.

    >>> construct("vec3", ["f32", "vec2<f32>"]), construct("mat2x2", ["vec2h", "vec2h"], template="f16"), construct("vec2u", [])
    ('vec3<f32>', 'mat2x2<f16>', 'vec2<u32>')
    """
    return _called("type", name, arguments, template)


@dataclass(frozen=True)
class Resolution:
    """The overload that takes a call: its index in `overloads` of the name, the types of its parameters, and its result, None
    without a value.

    >>> resolve_call("sqrt", ["AbstractInt"]).parameters
    ('AbstractFloat',)
    """

    overload: int
    parameters: tuple[str, ...]
    result: str | None


def resolve_call(name: str, arguments: Iterable[str], template: str | None = None) -> Resolution:
    """Which overload takes the call of a built-in function. A template's type stands first among the parameters.

    >>> resolve_call("mix", ["vec2<f32>", "vec2<f32>", "AbstractFloat"])
    Resolution(overload=2, parameters=('vec2<f32>', 'vec2<f32>', 'f32'), result='vec2<f32>')
    >>> overloads("mix")[2]
    'mix(vecN<T>, vecN<T>, T) -> vecN<T>, T: float'
    """
    index, _, rest = _called("resolve", name, arguments, template).partition(" (")
    parameters, _, result = rest.partition(")")
    types: list[str] = []
    for part in parameters.split(", ") if parameters else []:
        # A comma in a list of a type separates no parameters.
        if types and types[-1].count("<") > types[-1].count(">"):
            types[-1] += f", {part}"
        else:
            types.append(part)
    return Resolution(int(index), tuple(types), result[len(" -> "):] or None)


def overloads(name: str) -> list[str]:
    """The overloads of an operator, a built-in function or a constructor.

    >>> overloads("cross")
    ['cross(vec3<T>, vec3<T>) -> vec3<T>, T: float']
    """
    named = argument("name", "a name", name, "overloads %s")
    return _lines(_asked(named.alone, named))


def rank(source: str, target: str) -> int | None:
    """The rank of the conversion from one type to another, None if there is none.

    >>> rank("AbstractInt", "f32"), rank("f32", "i32")
    (6, None)
    """
    types = type_of("source", source), type_of("target", target)
    return _number(_asked(f"rank {', '.join(ty.text for ty in types)}", *types))


def common(types: Iterable[str]) -> str | None:
    """The type to which all of the types convert, None if there is none.

    >>> common(["AbstractInt", "f16", "AbstractFloat"]), common(["i32", "u32"])
    ('f16', None)
    """
    given = list_of(type_of, "types", "type", types)
    return _value(_asked(f"common {', '.join(ty.text for ty in given)}", *given))


class Size(NamedTuple):
    """A size and an alignment in bytes, each None if the type lacks it.

    >>> size("vec3<f32>").align
    16
    """

    size: int | None
    align: int | None


def size(ty: str) -> Size:
    """The size and the alignment of a type, which may be a struct.

    >>> size("array<mat4x3f, 4>"), size("array<vec3<f32>>"), size("struct Light { color: vec3f, level: f32 }")
    (Size(size=256, align=16), Size(size=None, align=16), Size(size=16, align=16))
    """
    given = type_of("ty", ty)
    return Size(*map(_number, _asked(given.alone, given).split(" ")))
