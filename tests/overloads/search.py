"""Overload resolution by its definition: a plain search over all candidates."""
import functools

from spelling import SCALARS, is_abstract, parts_of

# The scalars that a scalar converts to, each with its rank.
RANKS = {scalar: {scalar: 0} for scalar in SCALARS}
RANKS["AbstractInt"] |= {"i32": 3, "u32": 4, "AbstractFloat": 5, "f32": 6, "f16": 7}
RANKS["AbstractFloat"] |= {"f32": 1, "f16": 2}


@functools.cache
def loaded(t):
    """What a reference loads as, if it can be read; any other type stays."""
    name, parts = parts_of(t)
    return parts[1] if name == "ref" and parts[2] in ("read", "read_write") else t


@functools.cache
def conversions(t):
    """The types that an operand of this type converts to, each with its rank, once it is loaded. A reference that can't be
    read converts to nothing."""
    t = loaded(t)
    name, parts = parts_of(t)
    if name == "ref":
        return {}
    if name.startswith(("vec", "mat")):
        return {f"{name}<{scalar}>": rank for scalar, rank in RANKS[parts[0]].items()}
    return RANKS.get(t, {t: 0})


def is_preferred(ranks, others):
    """Whether the ranks are nowhere higher and somewhere lower than each of the others."""
    return all(ranks != other and all(x <= y for x, y in zip(ranks, other)) for other in others)


class Search:
    def __init__(self, table):
        self.found = {}
        for name, candidates in table.items():
            for template, parameters, answer in candidates:
                key = name, template, len(parameters), parameters[:1]
                concrete = not any(map(is_abstract, parameters))
                self.found.setdefault(key, []).append((parameters, answer, concrete))

    def taking(self, name, template, operands, constant):
        """The candidates that take the operands: parameters, answer, ranks."""
        ranks = [conversions(t) for t in operands]
        for first in [(t,) for t in ranks[0]] if ranks else [()]:
            for parameters, answer, concrete in self.found.get((name, template, len(ranks), first), ()):
                if (concrete or constant) and all(p in to for p, to in zip(parameters, ranks)):
                    yield parameters, answer, [to[p] for p, to in zip(parameters, ranks)]

    def answer(self, name, template, operands, constant):
        """What the preferred candidate answers. `constant` says whether all operands are const-expressions."""
        taking = list(self.taking(name, template, operands, constant))
        if not taking:
            return "no overload"
        preferred = [
            answer
            for i, (_, answer, ranks) in enumerate(taking)
            if is_preferred(ranks, [other for j, (_, _, other) in enumerate(taking) if j != i])
        ]
        assert len(preferred) == 1, f"{name}{operands}: {len(preferred)} preferred candidates"
        return preferred[0]
