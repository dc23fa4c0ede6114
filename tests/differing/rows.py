"""Which differences each row of docs/DIFFERENCES.md covers.

A rule names its row by the first cell, and by the second too if that is not unique. The names of functions and operators
that a rule speaks of are those in the first cell, unless it gives them itself; a rule with `names=""` tells by itself which
it covers."""
import re

from forms.kinds import element_of, is_vector
from spelling import is_abstract
from table import texts

BOOL, ABSTRACT_INT, FLOATS = {"bool"}, {"AbstractInt"}, {"AbstractFloat", "f32", "f16", "f64"}
INTEGERS = {"AbstractInt", "i32", "u32", "i64", "u64"}


def of(scalars, t):
    """Whether a type is one of the scalars, or a vector of one."""
    return (element_of(t) if is_vector(t) else t) in scalars


def count_of(vector):
    return int(vector[3])


class Rule:
    def __init__(self, item, covers, second=None, names=None):
        self.item, self.second, self.covers = item, second, covers
        self.names = re.findall(r"`([^`]+)`", item) if names is None else names.split()

    def explains(self, difference):
        return (not self.names or difference.name in self.names) and self.covers(difference)


def concrete(answer):
    return answer.replace("AbstractInt", "i32").replace("AbstractFloat", "f32")


def first_of(scalars):
    """A call that is refused here, whose first operand is one of the scalars or a vector of one."""
    return lambda d: d.is_narrower and bool(d.types) and of(scalars, d.types[0])


def third_is_abstract_int(d):
    return d.is_narrower and is_vector(d.types[0]) and d.types[2] == "AbstractInt"


def is_wider(d):
    return d.is_wider


def takes_bool(d):
    return d.is_wider and d.command == "binary" and any(of(BOOL, t) for t in d.types)


def negates(d):
    if d.command != "unary":
        return False
    t = d.types[0]
    return d.is_wider and t in ("u32", "u64", "bool") or d.is_narrower and is_vector(t)


def stays_abstract(d):
    """Not all operands are const-expressions, and WGSL makes concrete what the answer here is."""
    both = d.ours is not None and d.theirs is not None
    return both and not all(d.constant) and is_abstract(d.ours) and d.theirs == concrete(d.ours)


def differs_in_length(i, j):
    """A call that is taken here, of vectors of two lengths."""
    return lambda d: d.is_wider and is_vector(d.types[i]) and is_vector(d.types[j]) and count_of(d.types[i]) != count_of(d.types[j])


def keeps(scalar, other):
    """The answer has the abstract scalar of the argument where WGSL's has the other scalar."""
    return lambda d: of({scalar}, d.types[0]) and scalar in (d.ours or "") and d.theirs == d.ours.replace(scalar, other)


def is_matrix(d):
    return d.command == "ctor" and d.name.startswith("mat")


def miscounts_column(d):
    columns, rows = (int(c) for c in d.name[3:].split("x")) if is_matrix(d) else (0, 0)
    counted = d.is_wider and len(d.types) == columns
    return counted and all(is_vector(t) and count_of(t) != rows for t in d.types)


def makes_f32(d):
    made = is_matrix(d) and d.template is None and all(of(ABSTRACT_INT, t) for t in d.types)
    return made and d.theirs == (d.ours or "").replace("f32", "AbstractFloat")


# References are loaded by tests/differences, which asks what the answer is then.
REFERENCES = Rule("an operand that is a reference", lambda d: False)

# Functions that take no abstract integer as their first argument, each with a row of its own.
OF_FLOATS = "atan2 step distance reflect fma smoothstep faceForward length normalize".split()
RULES = [
    *(Rule(f"`{name}`", first_of(ABSTRACT_INT)) for name in OF_FLOATS),
    Rule("`cross`", first_of(ABSTRACT_INT), second="the first argument is a vector of AbstractInt"),
    Rule(
        "`mix` of three scalars or three vectors",
        lambda d: first_of(ABSTRACT_INT)(d) and (is_vector(d.types[2]) or not is_vector(d.types[0])),
    ),
    Rule("`mix` of two vectors and a scalar", third_is_abstract_int),
    Rule("`refract`", third_is_abstract_int),
    Rule(
        "`acos`, `acosh`, `asin`, `asinh`, `atan`, `atanh`, `ceil`, `cos`, `cosh`, `degrees`, `exp`, `exp2`, `floor`, "
        "`fract`, `inverseSqrt`, `log`, `log2`, `radians`, `round`, `saturate`, `sin`, `sinh`, `sqrt`, `tan`, `tanh`, "
        "`trunc`",
        first_of(ABSTRACT_INT),
    ),
    Rule("`quantizeToF16`", first_of(ABSTRACT_INT), second="the argument is AbstractInt or a vector of it"),
    Rule(
        "`dpdx`, `dpdxCoarse`, `dpdxFine`, `dpdy`, `dpdyCoarse`, `dpdyFine`, `fwidth`, `fwidthCoarse`, `fwidthFine`",
        first_of(ABSTRACT_INT),
    ),
    Rule("`frexp`, `modf`", first_of(ABSTRACT_INT)),
    Rule("`ldexp`", first_of(ABSTRACT_INT), second="the first argument is AbstractInt or a vector of it"),
    Rule(
        "`ldexp`",
        lambda d: d.is_narrower and len({is_abstract(t) for t in d.types}) == 2,
        second="one argument is abstract and the other is not",
    ),
    Rule("`ldexp`", lambda d: d.is_narrower and of({"i64"}, d.types[1]), second="the second argument is `i64` or a vector of it"),
    Rule("`+`, `-`, `*`, `/`, `%`", takes_bool),
    Rule("`<`, `<=`, `>`, `>=`", takes_bool),
    Rule("`|`, `&` of two `bool`", lambda d: d.is_narrower and d.types == ("bool", "bool"), names="| &"),
    Rule("unary `-`", negates),
    Rule("`!`", lambda d: d.is_wider and is_vector(d.types[0]) and not of(BOOL, d.types[0])),
    REFERENCES,
    Rule("an abstract operand beside one of the runtime", stays_abstract),
    Rule("`all`, `any`", lambda d: d.is_wider and len(d.types) == 1 and not of(BOOL, d.types[0])),
    Rule("`arrayLength`", is_wider),
    Rule("`pow`", is_wider, second="takes any two types with a common type"),
    Rule("`pow`", keeps("AbstractInt", "AbstractFloat"), second="keeps AbstractInt"),
    Rule("`sign`", lambda d: d.is_wider and len(d.types) == 1 and of({"u64"}, d.types[0])),
    Rule("`cross`", is_wider, second="takes vectors of any length"),
    Rule("`select`", differs_in_length(0, 2)),
    Rule("`ldexp`", differs_in_length(0, 1), second="doesn't compare the lengths of its vectors"),
    Rule(
        "`insertBits`",
        lambda d: d.is_wider and of(ABSTRACT_INT, d.types[0]) and of(FLOATS, d.types[1]),
        second="takes a float as its second argument if the first is an abstract integer",
    ),
    Rule("`reverseBits`", keeps("AbstractInt", "i32")),
    Rule("`quantizeToF16`", keeps("AbstractFloat", "f32"), second="keeps an abstract type"),
    Rule("`pack4xI8Clamp`, `pack4xU8Clamp`", lambda d: (d.is_wider or d.is_narrower) and len(d.types) == 1 and is_vector(d.types[0])),
    Rule("`bitcast`", is_wider),
    Rule(
        "`subgroupShuffleUp`, `subgroupShuffleDown`, `subgroupShuffleXor`",
        lambda d: d.is_wider and d.types[1] in INTEGERS - {"u32"},
    ),
    Rule("`subgroupBallot`", lambda d: d.is_wider and not d.types),
    Rule("texture functions", lambda d: d.is_wider and d.name.startswith("texture")),
    Rule("atomic functions", lambda d: d.is_wider and d.name.startswith("atomic")),
    Rule("`workgroupUniformLoad`", lambda d: d.is_wider and d.types[0].startswith("ptr<workgroup, ")),
    Rule("`workgroupUniformLoad` of an atomic", lambda d: d.ours == f"atomic<{d.theirs}>"),
    Rule("constructors of matrices", miscounts_column),
    Rule("constructors of matrices without a template, of AbstractInt", makes_f32),
]

# Rows about which nothing is asked, or whose questions have one answer: the first cell, and the second if the first is not unique.
NOT_ASKED = [(item, second or None) for item, second, _ in texts("tables/differences.tsv", "not asked")]
