"""The arguments of a call as parts of a request. Nothing here asks the library."""
from __future__ import annotations

import re
from typing import Callable, Iterable, NamedTuple

# A name, or `const` and a name: it reads as one part wherever it stands.
_WORD = re.compile(r"(?:const )?[^\W\d]\w*")
_PLACE = re.compile(r"column \d+: ")


class Argument(NamedTuple):
    """The name of an argument of a call, its text, and a request that reads it alone."""

    name: str
    text: str
    alone: str

    def is_word(self) -> bool:
        """Whether the text can't be more than a name."""
        return _WORD.fullmatch(self.text) is not None

    @property
    def bracketed(self) -> str:
        """The text as an operand of an operator or a call."""
        return self.text if self.is_word() else f"({self.text})"


def text_of(name: str, kind: str, value: object) -> str:
    """An argument that is a str."""
    if not isinstance(value, str):
        raise TypeError(f"{name}: {kind} is a str, not {type(value).__name__}")
    return value


def argument(name: str, kind: str, value: object, alone: str) -> Argument:
    """An argument, which stands for `%s` in the request. That is one line, so blanks stand for the ends of lines."""
    text = text_of(name, kind, value).replace("\n", " ").strip()
    return Argument(name, text, alone.replace("%s", text))


def type_of(name: str, value: object) -> Argument:
    return argument(name, "a type", value, "size %s")


def operand_of(name: str, value: object) -> Argument:
    return argument(name, "a type", value, "type %s")


def operator_of(value: object) -> Argument:
    """An operator. It has no letters: a name in front of brackets would be a call, so that can't be read."""
    operator = argument("operator", "an operator", value, "overloads %s")
    return operator._replace(alone=f"overloads + {operator.text}") if re.search(r"\w", operator.text) else operator


def list_of(of: Callable[[str, object], Argument], name: str, each: str, values: Iterable[str]) -> list[Argument]:
    """The arguments in a list. One is called `each` and its number, from 1."""
    if isinstance(values, (str, bytes)) or not hasattr(values, "__iter__"):
        raise TypeError(f"{name}: a list of types is wanted, not {type(values).__name__}")
    return [of(f"{each} {number}", value) for number, value in enumerate(values, 1)]


def without_place(message: str) -> str:
    """A message without the column in the request."""
    return _PLACE.sub("", message, count=1)
