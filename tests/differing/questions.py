"""The questions: calls as tests/standard asks them, with naga's scalars of 64 bits among the operands and the constructors. Array
and struct constructors, `&`, `*` and ray queries have no overloads, so no question is about them."""
import itertools

from overloads.calls import FEWER, Calls
from overloads.facts import read_facts
from spelling import OWN_SCALARS, SCALARS

OWN = [shape % scalar for shape in ("%s", "vec2<%s>", "vec3<%s>") for scalar in OWN_SCALARS]
# What stands in place of types, so that two arguments at once are of others.
COUNTS = ["u32", "AbstractInt", "i32", "AbstractFloat", "vec2<u32>", "ref<function, u32, read_write>"]


class Questions(Calls):
    def all(self):
        return list(dict.fromkeys([*super().all(), *self.of_columns(), *self.of_bits(), *self.of_own_templates()]))

    def near_names(self):
        """None: what nothing has has no row."""
        return ()

    def of_columns(self):
        """Matrices of vectors: of the right and the wrong length, as many as there are columns, one less and one more."""
        for name in self.names():
            if name.startswith("mat"):
                for rows, scalar, more in itertools.product("234", SCALARS, (-1, 0, 1)):
                    yield from self.asked(name, None, [f"vec{rows}<{scalar}>"] * (int(name[3]) + more))

    def of_bits(self):
        for pair in itertools.product(FEWER + OWN, repeat=2):
            yield from self.asked("insertBits", None, [*pair, *self.rng.choices(COUNTS, k=2)])

    def of_own_templates(self):
        for name, template, t in itertools.product(("bitcast", "vec2", "mat2x2"), OWN_SCALARS, self.universe):
            yield from self.asked(name, template, [t])


def questions():
    """Each question once."""
    formats, table = read_facts()
    own = {name: {(None, (), name), (None, ("f32",), name)} for name in OWN_SCALARS}
    return Questions(table | own, formats, OWN).all()
