"""Layouts of structs that end in a runtime-sized array, which counts as one element."""
import math

from forms.kinds import contains, element_of, is_matrix, is_runtime_sized, is_vector
from forms.rules import without_runtime_sized_end
from spelling import STRUCTS, parts_of

# The attributes `size` and `align` of members, by the names of struct and member.
ATTRIBUTES = {}
SIZES = {"i32": 4, "u32": 4, "f32": 4, "f16": 2, "i64": 8, "u64": 8, "f64": 8}


def round_up(alignment, size):
    return math.ceil(size / alignment) * alignment


def measure(t):
    """The size and the alignment in bytes."""
    name, parts = parts_of(t)
    if t in STRUCTS:
        return placed(t)[1:]
    if is_vector(t):
        components = int(name[3])
        return components * SIZES[parts[0]], (2 if components == 2 else 4) * SIZES[parts[0]]
    if is_matrix(t):
        size, alignment = measure(f"vec{name[5]}<{parts[0]}>")
        return int(name[3]) * round_up(alignment, size), alignment
    if element_of(t):
        return (1 if is_runtime_sized(t) else int(parts[1])) * stride(t), measure(parts[0])[1]
    scalar = parts[0] if name == "atomic" else t
    return SIZES[scalar], SIZES[scalar]


def stride(array):
    size, alignment = measure(element_of(array))
    return round_up(alignment, size)


def placed(struct):
    """The offsets of the members, the size and the alignment."""
    offsets, end, alignment = [], 0, 1
    for name, t in STRUCTS[struct]:
        own_size, own_alignment = ATTRIBUTES[struct, name]
        least_size, least_alignment = measure(t)
        offsets.append(round_up(own_alignment or least_alignment, end))
        end = offsets[-1] + (own_size or least_size)
        alignment = max(alignment, own_alignment or least_alignment)
    return offsets, round_up(alignment, end), alignment


def layout(struct):
    """None if a runtime-sized array is elsewhere than at the end."""
    if any(contains(is_runtime_sized, t) for t in without_runtime_sized_end(struct)):
        return "none"
    offsets, size, alignment = placed(struct)
    places = " ".join(map(str, offsets))
    return f"offsets {places}; size {size}; alignment {alignment}; stride {stride(STRUCTS[struct][-1][1])}"
