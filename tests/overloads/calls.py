"""The calls that are asked. Each is a name, a template or None, the types of the operands, and for each operand whether it
is a const-expression."""
import functools
import itertools
import random

from overloads.search import conversions
from overloads.signatures import SAMPLES
from spelling import SCALARS, declarations, is_abstract, is_value, parts_of
from table import listed

TABLE = "tables/calls.tsv"
CONCRETE = ["bool", "i32", "u32", "f32", "f16"]
VALUES = [shape % s for shape in ("%s", "vec2<%s>", "vec3<%s>", "vec4<%s>") for s in SCALARS]
VALUES += [f"mat{c}x{r}<f32>" for c in "234" for r in "234"]
VALUES += [f"mat{shape}<{s}>" for shape in ("2x2", "2x3", "3x2", "4x4") for s in ("f16", "AbstractFloat")]
LOADED = listed(TABLE, "reference")
OTHERS = LOADED + listed(TABLE, "other")
UNIVERSE = VALUES + OTHERS
# Fewer types, for triples and for the constructors with a template.
FEWER = VALUES[:21] + ["mat2x2<f32>", "mat2x2<AbstractFloat>", "mat2x3<f16>", "array<f32, 4>"] + LOADED[:4]

SAMPLED, DEPTH, STORAGE, FEW_FORMATS = (listed(TABLE, kind) for kind in ("sampled", "depth", "storage", "format"))
TEXTURES = [f"texture_{kind}<{s}>" for kind in SAMPLED for s in ("i32", "u32", "f32")]
TEXTURES += [f"texture_{kind}" for kind in DEPTH]

SPACES = ["function", "private", "workgroup", "uniform", "storage", "immediate"]
ACCESSES = ["read", "write", "read_write"]
POINTEES = SAMPLES + [f"array<{t}>" for t in ("f32", "vec2<f32>", "mat2x2<f32>", "array<f32, 4>", "Counter")]
SECOND = listed(TABLE, "second")  # what atomic functions take beside the pointer
POINTERS = [f"ptr<{s}, {t}, {a}>" for s in SPACES for t in POINTEES for a in ACCESSES]

UNARY = ["!", "-", "~"]  # `&` and `*` have no overloads
TEMPLATES = [shape % s for shape in ("%s", "vec2<%s>", "vec3<%s>", "vec4<%s>") for s in CONCRETE] + ["mat2x2<f32>"]
# Functions of three and more values, which are asked with many triples.
WIDE = listed(TABLE, "wide")


def storage_textures(formats):
    return [f"texture_storage_{kind}<{f}, {a}>" for kind in STORAGE for f in formats for a in ACCESSES]


def request(command, call):
    """The request about a call, and the column of what is called. The command is `type`, `resolve` or `why`."""
    name, template, operands, constant = call
    said = [("const " if is_const else "") + t for t, is_const in zip(operands, constant)]
    front = f"{declarations(filter(None, [template, *operands]))}{command} "
    if name[0].isalpha():
        listed = f"<{template}>" if template else ""
        return f"{front}{name}{listed}({', '.join(said)})", len(front) + 1
    *left, right = said
    front += "".join(f"{x} " for x in left)
    return f"{front}{name} {right}", len(front) + 1


def with_constants(rng, operands):
    """The operands as const-expressions as far as they can be; and as few of them as can be. Where no operand is abstract,
    one choice by chance."""
    most = tuple(map(is_value, operands))
    least = tuple(map(is_abstract, operands))
    if any(least):
        yield operands, most
        yield operands, least
        if rng.random() < 0.05:
            yield operands, (False,) * len(operands)
    else:
        yield operands, tuple(can_be and rng.random() < 0.5 for can_be in most)


class Calls:
    """The calls of names with their candidates; `own` are types of operands beside those of WGSL."""

    def __init__(self, table, formats, own=()):
        self.rng = random.Random(2026)
        self.table = table
        self.universe = [*UNIVERSE, *own]
        self.textures = TEXTURES + storage_textures(FEW_FORMATS)
        self.storage = storage_textures(formats)

    def all(self):
        """Each call once."""
        parts = [self.operators(), self.of_one(), self.of_two(), self.of_more(), self.of_pointers(), self.of_textures()]
        parts += [self.of_formats(), self.with_templates(), self.of_candidates(), self.by_chance(), self.near_names()]
        return list(dict.fromkeys(itertools.chain(*parts)))

    def asked(self, name, template, operands):
        for operands, constant in with_constants(self.rng, tuple(operands)):
            yield name, template, operands, constant

    def names(self, of_operators=False):
        return [name for name in self.table if name[0].isalpha() != of_operators]

    def has_template(self, name):
        return any(template for template, _, _ in self.table[name])

    def counts(self, name):
        return {len(parameters) for _, parameters, _ in self.table[name]}

    def operators(self):
        for name, t in itertools.product(UNARY, self.universe + POINTERS + self.textures):
            yield from self.asked(name, None, [t])
        for name in self.names(of_operators=True):
            if 2 in self.counts(name):
                for pair in itertools.product(self.universe, repeat=2):
                    yield from self.asked(name, None, pair)

    def of_one(self):
        for name in self.names():
            yield from self.asked(name, None, [])
            for t in self.universe + self.textures:
                yield from self.asked(name, None, [t])

    def of_two(self):
        for name in self.names():
            if 2 in self.counts(name) and not name.startswith(("texture", "atomic")):
                for pair in itertools.product(self.universe, repeat=2):
                    yield from self.asked(name, None, pair)

    def of_more(self):
        for name in WIDE:
            for _ in range(3000):
                yield from self.asked(name, None, self.rng.choices(FEWER, k=3))
        for _ in range(3000):
            yield from self.asked("insertBits", None, self.rng.choices(FEWER, k=4))

    def of_pointers(self):
        """Pointers in each space, of each access, to each type."""
        names = [name for name in self.names() if name.startswith(("arrayLength", "atomic", "workgroupUniform"))]
        for name, pointer in itertools.product(names, POINTERS):
            count = max(self.counts(name))
            others = SECOND if "atomic" in pointer and count > 1 else SECOND[:1]
            for t in others:
                yield from self.asked(name, None, [pointer] + [t] * (count - 1))

    def of_textures(self):
        """Each texture with the other operands of each candidate of the function's name, whatever its texture."""
        for name in self.names():
            if name.startswith("texture"):
                shapes = {tuple(map(without_texture, parameters)) for _, parameters, _ in self.table[name]}
                for shape, texture in itertools.product(sorted(shapes), self.textures):
                    yield from self.asked(name, None, [texture if t == "texture" else self.source(t) for t in shape])

    def of_formats(self):
        """Storage textures of each format and access."""
        for texture in self.storage:
            size = parts_of(texture)[0][len("texture_storage_")]
            place = [f"vec{size}<i32>" if size != "1" else "i32"]
            yield from self.asked("textureDimensions", None, [texture])
            for operands in (place, place + ["u32"]):
                yield from self.asked("textureLoad", None, [texture] + operands)
                for channel in ("i32", "u32", "f32"):
                    yield from self.asked("textureStore", None, [texture] + operands + [f"vec4<{channel}>"])

    def with_templates(self):
        for name in self.names():
            if name == "bitcast":
                for template, t in itertools.product(TEMPLATES, self.universe):
                    yield from self.asked(name, template, [t])
            elif self.has_template(name):
                for template in CONCRETE + ["vec2<f32>"]:
                    yield from self.asked(name, template, [])
                    for t in self.universe:
                        yield from self.asked(name, template, [t])
                if 2 in self.counts(name):
                    for template, pair in itertools.product(["f32", "u32", "bool"], itertools.product(FEWER, repeat=2)):
                        yield from self.asked(name, template, pair)
            else:
                yield from self.asked(name, "f32", ["f32"] * min(self.counts(name)))

    def candidates(self):
        """The candidates that a call can name: no template has an abstract type."""
        for name, candidates in self.table.items():
            for template, parameters, _ in sorted(candidates, key=str):
                if not (template and is_abstract(template)):
                    yield name, template, parameters

    def of_candidates(self):
        """Each candidate with operands of its own types, and with others that convert to them."""
        for name, template, parameters in self.candidates():
            yield from self.asked(name, template, parameters)
            for _ in range(2):
                yield from self.asked(name, template, map(self.source, parameters))

    def by_chance(self):
        """Calls that fit, for each number of operands of each name, and the same with a mistake."""
        groups = {}
        for name, template, parameters in self.candidates():
            groups.setdefault((name, template, len(parameters)), []).append(parameters)
        for (name, template, count), choices in groups.items():
            for _ in range(60 if count < 3 else 200):
                operands = [self.source(t) for t in self.rng.choice(choices)]
                yield from self.asked(name, template, operands)
                operands = self.with_a_mistake(operands)
                if name[0].isalpha() or len(operands) == count:
                    yield from self.asked(name, template, operands)

    def source(self, parameter):
        """A type that converts to the parameter, often the same, and now and then a reference to it."""
        if not is_value(parameter) or self.rng.random() < 0.5:
            return parameter
        if not is_abstract(parameter) and self.rng.random() < 0.1:
            return f"ref<function, {parameter}, {self.rng.choice(ACCESSES)}>"
        return self.rng.choice(sources(parameter))

    def with_a_mistake(self, operands):
        operands = list(operands)
        kind = self.rng.random()
        if not operands or kind < 0.1:
            operands.insert(self.rng.randrange(len(operands) + 1), self.rng.choice(self.universe))
        elif kind < 0.2:
            operands.pop(self.rng.randrange(len(operands)))
        else:
            at = self.rng.randrange(len(operands))
            operands[at] = self.rng.choice(self.alike(operands[at]))
        return operands

    def alike(self, t):
        """Types of the kind that this one is of."""
        if t.startswith("texture"):
            return TEXTURES + self.storage
        if t.startswith("ptr"):
            return POINTERS
        return FEWER if is_value(t) and self.rng.random() < 0.5 else self.universe

    def near_names(self):
        """Names that are none: each without its last letter, and with one more. Some of these are reserved."""
        for name in self.names():
            _, parameters, _ = min(self.table[name], key=str)
            for near in (name[:-1], name + "A"):
                if near not in [*self.table, "do", "mod"]:
                    yield from self.asked(near, None, parameters)


@functools.cache
def sources(parameter):
    return [t for t in UNIVERSE if parameter in conversions(t)] or [parameter]


def without_texture(t):
    return "texture" if t.startswith("texture") else t
