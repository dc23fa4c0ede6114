"""Kinds of types, and which converts to which."""
import re

from overloads.search import RANKS
from spelling import OWN_SCALARS, SCALARS, STRUCTS, parts_of

CONCRETE = {"AbstractInt": "i32", "AbstractFloat": "f32"}
RESULT_STRUCT = re.compile(r"__(frexp|modf)_result_(?:vec\d_)?(abstract|f32|f16)")


def element_of(t):
    """What a vector, a matrix or an array is made of, or None. `vec3<f32>` and `array<f32, 4>` are made of `f32`."""
    name, parts = parts_of(t)
    return parts[0] if parts and (name == "array" or is_vector(t) or is_matrix(t)) else None


def with_element(t, element):
    """`array<AbstractInt, 3>` with `i32` is `array<i32, 3>`."""
    name, parts = parts_of(t)
    return f"{name}<{', '.join([element, *parts[1:]])}>"


def is_vector(t):
    return re.match(r"vec\d<", t) is not None


def is_matrix(t):
    return re.match(r"mat\dx\d<", t) is not None


def is_runtime_sized(t):
    name, parts = parts_of(t)
    return name == "array" and len(parts) == 1


def of_kind(name):
    """Whether a type has this name in front of its list. A `binding_array`, which is naga's, is neither constructible nor stored."""
    return lambda t: parts_of(t)[0] == name


is_array, is_binding_array, is_atomic, is_pointer = map(of_kind, ("array", "binding_array", "atomic", "ptr"))


def is_handle(t):
    """A texture or a sampler."""
    return t not in STRUCTS and t.startswith(("texture_", "sampler"))


def concrete(t):
    """`vec3<AbstractInt>` becomes `vec3<i32>`, `__frexp_result_abstract` becomes `__frexp_result_f32`."""
    if element_of(t):
        return with_element(t, concrete(element_of(t)))
    if RESULT_STRUCT.fullmatch(t):
        return t.replace("abstract", "f32")
    return CONCRETE.get(t, t)


def is_abstract(t):
    return concrete(t) != t


def is_constructible(t):
    """Constructible, or the abstract type of a value."""
    if t in STRUCTS:
        return all(is_constructible(of) for _, of in STRUCTS[t])
    if element_of(t):
        return not is_runtime_sized(t) and is_constructible(element_of(t))
    return t in SCALARS + OWN_SCALARS


def contains(wanted, t):
    """Whether the type, or one that it is made of, is wanted."""
    if wanted(t):
        return True
    if t in STRUCTS:
        return any(contains(wanted, of) for _, of in STRUCTS[t])
    return element_of(t) is not None and contains(wanted, element_of(t))


def can_be_named_value(t):
    """What `let` and parameters take."""
    return is_constructible(t) or is_pointer(t) or is_handle(t)


# naga's integers of 64 bits. AbstractFloat converts to no float of 64 bits.
OWN_TARGETS = {"AbstractInt": ("i64", "u64")}


def converts(t, to):
    if element_of(t) and element_of(to):
        return with_element(t, "") == with_element(to, "") and converts(element_of(t), element_of(to))
    if is_abstract(t) and RESULT_STRUCT.fullmatch(t):
        return to in (t, t.replace("abstract", "f32"), t.replace("abstract", "f16"))
    return to == t or to in RANKS.get(t, ()) or to in OWN_TARGETS.get(t, ())


def common_type(types):
    """The least type to which all convert. It is one of them: if two types convert to a third, one converts to the other."""
    return next((to for to in types if all(converts(t, to) for t in types)), None)
