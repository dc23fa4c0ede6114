"""Layouts of WGSL texts, and their check."""
from __future__ import annotations

import json
from dataclasses import dataclass
from importlib import import_module
from typing import Any

from ._arguments import text_of
from ._library import ask

_LANGUAGES = ["c", "rust", "numpy", "typescript"]
_SCALARS = {"bool": "<u4", "i32": "<i4", "u32": "<u4", "f32": "<f4", "f16": "<f2", "i64": "<i8", "u64": "<u8", "f64": "<f8"}


class SourceError(ValueError):
    """A WGSL text has errors. Its text has the `line`, the `column` in bytes and the `reason` of the first. `errors` are all of them,
    as `source_layout` has them, and `layouts` are those of the rest.

    >>> try:
    ...     dtype("struct Light { color: Color, power: f32 }", "Light")
    ... except SourceError as error:
    ...     print(error)
    line 1, column 23: no declaration has this name: `Color`
    """

    def __init__(self, layouts: dict[str, Any]) -> None:
        self.layouts, self.errors = layouts, layouts["errors"]
        self.line, self.column, self.reason = (self.errors[0][name] for name in ("line", "column", "message"))
        more = f", and {len(self.errors) - 1} more" if len(self.errors) > 1 else ""
        super().__init__(f"line {self.line}, column {self.column}: {self.reason}{more}")

    def __reduce__(self) -> tuple[Any, ...]:
        return type(self), (self.layouts,)


def source_layout(text: str | bytes) -> dict[str, Any]:
    """The layouts of the structs of a WGSL module, where its variables are bound, and what is wrong, as the JSON of
    `wgsl layout --json` has them: `structs`, `leftOut`, `variables`, `overrides`, `entryPoints`, `errors` and `findings`.

    >>> told = source_layout("struct Light { color: vec3f, power: f32 } @group(0) @binding(0) var<uniform> light: Light;")
    >>> [(member["name"], member["offset"], member["size"]) for member in told["structs"][0]["members"]]
    [('color', 0, 12), ('power', 12, 4)]
    >>> told["variables"][0]["minBindingSize"]
    16
    """
    layouts: dict[str, Any] = json.loads(ask("wgsl_source_layout", _bytes_of(text))[1])
    return layouts


@dataclass(frozen=True)
class Place:
    """A line and a column in bytes, both from 1, and the same column in units of UTF-16, as JavaScript counts.

    >>> check("/* ü */ const a = b;").faults[0].start
    Place(line=1, column=20, utf16_column=19)
    """

    line: int
    column: int
    utf16_column: int


@dataclass(frozen=True)
class Note:
    """What a fault says beside its message, and where: why an overload doesn't fit, or where the other declaration is.

    >>> note, = check("const a = 1; const a = 2;").faults[0].notes
    >>> note.start.column, note.message
    (7, '`a` is declared here')
    """

    start: Place
    end: Place
    message: str


@dataclass(frozen=True)
class Fault:
    """What is wrong: from where to where, the code of the rule that is broken, the message, and the notes, nearest first.
    docs/FAULTS.md has the codes.

    >>> fault, = check("const a = 1u + true;").faults
    >>> fault.kind, fault.notes[0].message
    ('overload', '+(T, T) -> T, T: number: argument 2 is bool')
    """

    start: Place
    end: Place
    kind: str
    message: str
    notes: tuple[Note, ...]


@dataclass(frozen=True)
class Part:
    """An expression: from where to where, its type, when its value is known (`const`, `override` or `runtime`), and if it is a name
    that the text declares, where.

    >>> part = check("const a = 1; const b: f32 = a;").parts[-1]
    >>> part.type, part.stage, part.declared.column
    ('AbstractInt', 'const', 7)
    """

    start: Place
    end: Place
    type: str
    stage: str
    declared: Place | None


@dataclass(frozen=True)
class Checked:
    """What is found of a text, each in its order: what is wrong, and the expressions that have a type.

    >>> check("var<private> a: u32;")
    Checked(faults=(), parts=())
    """

    faults: tuple[Fault, ...]
    parts: tuple[Part, ...]


def check(text: str | bytes) -> Checked:
    """Checks a WGSL module by WGSL's rules. Raises nothing for a fault.

    >>> checked = check("fn f(v: vec3f) -> f32 { let a = v.x * true; }")
    >>> [(fault.start.column, fault.message) for fault in checked.faults]
    [(37, 'no overload of `*` takes (f32, bool)'), (45, 'this function may end without a `return`')]
    >>> [(part.start.column, part.end.column, part.type) for part in checked.parts]
    [(33, 34, 'vec3<f32>'), (33, 36, 'f32'), (39, 43, 'bool')]
    """
    told = json.loads(ask("wgsl_module_check", _bytes_of(text))[1])
    faults = [Fault(*_ends_of(it), it["kind"], it["message"], _notes_of(it)) for it in told["faults"]]
    parts = [Part(*_ends_of(it), it["type"], it["stage"], it["declared"] and _place(it["declared"])) for it in told["types"]]
    return Checked(tuple(faults), tuple(parts))


def _notes_of(told: dict[str, Any]) -> tuple[Note, ...]:
    return tuple(Note(*_ends_of(note), note["message"]) for note in told.get("notes", ()))


def _ends_of(told: dict[str, Any]) -> tuple[Place, Place]:
    return _place(told), _place(told["end"])


def _place(told: dict[str, Any]) -> Place:
    return Place(told["line"], told["column"], told["utf16Column"])


def _bytes_of(text: str | bytes) -> bytes:
    if not isinstance(text, (str, bytes, bytearray, memoryview)):
        raise TypeError(f"a text is a str or bytes, not {type(text).__name__}")
    return text.encode("utf-8", "surrogatepass") if isinstance(text, str) else bytes(text)


def source_code(text: str | bytes, language: str) -> str:
    """The structs of a WGSL module as code in a language: `c`, `rust`, `numpy` or `typescript`. Raises SourceError if the module
    has errors.

    >>> print(source_code("struct Light { power: f32 }", "c").splitlines()[-1])
    static_assert(sizeof(struct Light) == 4, "");
    """
    if language not in _LANGUAGES:
        raise ValueError(f"there is no language {language!r}: it is {', '.join(_LANGUAGES)}")
    _without_errors(text)
    return ask("wgsl_source_code", _bytes_of(text), _LANGUAGES.index(language))[1]


def _without_errors(text: str | bytes | dict[str, Any]) -> dict[str, Any]:
    """The layouts of a text, which has no errors, or those that are given."""
    if isinstance(text, dict):
        return text
    layouts = source_layout(text)
    if layouts["errors"]:
        raise SourceError(layouts)
    return layouts


def source_dtypes(text: str | bytes | dict[str, Any]) -> dict[str, Any]:
    """The structs of a WGSL module as dtypes of numpy, by their names. Raises SourceError if the module has errors; of layouts, as
    the error has them, it makes dtypes all the same. Raises ImportError without numpy.

    >>> sorted(source_dtypes("struct Light { color: vec3f, power: f32 }"))
    ['Light']
    """
    structs = {struct["name"]: struct for struct in _without_errors(text)["structs"]}
    as_dtype = import_module("numpy").dtype  # only who asks for dtypes needs it

    def of_struct(name: str) -> Any:
        members = structs[name]["members"]
        return as_dtype({
            "names": [member["name"] for member in members],
            "formats": [of_type(member["typeTree"]) for member in members],
            "offsets": [member["offset"] for member in members],
            "itemsize": structs[name]["size"],
        })

    def of_type(tree: dict[str, Any]) -> Any:
        kind = tree["kind"]
        if kind == "struct":
            return of_struct(tree["name"])
        if kind == "scalar":
            return as_dtype(_SCALARS[tree["name"]])
        inner = of_type(tree["element"] if kind == "array" else tree["component"])
        if kind == "vector":
            return as_dtype((inner, (tree["count"],)))
        if kind == "matrix":
            return spaced(as_dtype((inner, (tree["rows"],))), tree["columns"], tree["stride"])
        return spaced(inner, tree["count"] or 1, tree["stride"]) if kind == "array" else inner

    def spaced(inner: Any, count: int, stride: int) -> Any:
        """Elements that lie so far apart. One that is shorter is the field `value` of one with its padding."""
        if inner.itemsize != stride:
            inner = as_dtype({"names": ["value"], "formats": [inner], "offsets": [0], "itemsize": stride})
        base, shape = inner.subdtype or (inner, ())
        return as_dtype((base, (count, *shape)))

    return {name: of_struct(name) for name in structs}


def dtype(text: str | bytes | dict[str, Any], name: str) -> Any:
    """The struct of that name of a WGSL module, or of its layouts, as a dtype of numpy. Raises SourceError if the module has errors,
    KeyError if the struct isn't there, ImportError without numpy.

    >>> dtype("struct Light { color: vec3f, power: f32 }", "Light").itemsize
    16
    """
    text_of("name", "a name", name)
    return source_dtypes(text)[name]
