"""The type rules of WGSL, from a proved library.

    >>> import wgsl
    >>> wgsl.binary("+", "AbstractInt", "vec3<f32>")
    'vec3<f32>'
    >>> wgsl.source_layout("struct Light { color: vec3f, power: f32 }")["structs"][0]["size"]
    16

A type is a `str` as WGSL spells it. The calls answer by WGSL's own rules; `answer` takes any request in WGSL, and requests in words
by the rules of the Rust crate wgsl-types. `source_layout` reads a whole file, `source_code` writes its structs as C, Rust, numpy or
TypeScript, and `check` says what is wrong with it, and the types of its expressions.

The library libwgsl.so is beside this package. For another, the environment variable WGSL_LIB names the folder where
`make library FOLDER=..` wrote it; a relative one is looked for in the working directory and in each folder above.
"""
from ._library import VERSION as __version__
from .requests import (Refused, Resolution, Size, Unreadable, answer, binary, call, common, construct, overloads, rank, resolve_call,
                       size, unary)
from .source import Checked, Fault, Note, Part, Place, SourceError, check, dtype, source_code, source_dtypes, source_layout

__all__ = [
    "Checked", "Fault", "Note", "Part", "Place", "Refused", "Resolution", "Size", "SourceError", "Unreadable", "__version__", "answer",
    "binary", "call", "check", "common", "construct", "dtype", "overloads", "rank", "resolve_call", "size", "source_code",
    "source_dtypes", "source_layout", "unary",
]
