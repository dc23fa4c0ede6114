"""What WGSL answers for members, indexes, loads, declarations, assignments and lists of values: a plain reading of its rules.

Types are spelled as in WGSL. A function has the rule of one form: it returns a type, or raises the first refusal.
"""
import functools

from forms.kinds import can_be_named_value, common_type, concrete, contains, converts, element_of, is_abstract, is_array, is_atomic
from forms.kinds import is_binding_array, is_constructible, is_handle, is_matrix, is_pointer, is_runtime_sized, is_vector
from overloads.facts import read_facts
from overloads.search import Search
from spelling import OWN_SCALARS, SCALARS, STRUCTS, parts_of


class Refused(Exception):
    def __init__(self, name, *fields):
        super().__init__(f"{name}({', '.join(map(str, fields))})" if fields else name)


def ensure(holds, *refusal):
    if not holds:
        raise Refused(*refusal)


# Memory

def memory_of(t):
    """The address space, the type behind, and the access of a reference or a pointer; else None."""
    name, parts = parts_of(t)
    return parts if name in ("ref", "ptr") else None


def behind(t):
    return memory_of(t)[1] if memory_of(t) else t


def formed(t, part):
    """A part of memory is a reference to it, of the same space and access."""
    if not memory_of(t):
        return part
    space, _, access = memory_of(t)
    return f"ref<{space}, {part}, {access}>"


def is_reference(t):
    return parts_of(t)[0] == "ref"


def is_constant(x):
    """Whether an operand is a const-expression."""
    return (is_abstract(x.type) or x.says_const) and not memory_of(x.type)


# Load Rule

# naga's access mode `atomic` allows neither.
READING = "read", "read_write"
WRITING = "write", "read_write"


def load(t):
    if not is_reference(t):
        return t
    _, inner, access = memory_of(t)
    ensure(access in READING, "NotRead")
    ensure(is_constructible(inner) or is_handle(inner), "NotConstructible", inner)
    return inner


# Vector Access Expression, Structure Access Expression

def is_swizzle(name, count):
    return 0 < len(name) <= 4 and any(set(name) <= set(letters[:count]) for letters in ("xyzw", "rgba"))


def member(x, name):
    t = behind(x)
    if t in STRUCTS:
        for own, of in STRUCTS[t]:
            if own == name:
                return formed(x, of)
    elif is_vector(t) and is_swizzle(name, int(t[3])):
        if len(name) == 1:
            return formed(x, element_of(t))
        if memory_of(x):
            load(formed(x, t))
        return f"vec{len(name)}<{element_of(t)}>"
    raise Refused("Component", t, name)


# Vector, Matrix and Array Access Expression

def part_at_index(t):
    if is_matrix(t):
        return f"vec{t[5]}<{element_of(t)}>"
    if element_of(t) or is_binding_array(t):
        return parts_of(t)[1][0]
    raise Refused("NotIndexable", t)


def integer(t):
    loaded = load(t)
    ensure(loaded in ("i32", "u32", "AbstractInt"), "NotInteger", loaded)
    return loaded


def index(x, i):
    part = part_at_index(behind(x))
    integer(i.type)
    if not memory_of(x) and not is_constant(i):
        return concrete(part)
    return formed(x, part)


# Value Declarations

def named_value(t):
    """What a `let` without a type, or a phony assignment, takes."""
    loaded = load(t)
    ensure(can_be_named_value(loaded), "NotConstructible", loaded)
    return concrete(loaded)


def accept(declared, is_accepted):
    """A type that is written: it is concrete, and accepted there."""
    ensure(not is_abstract(declared) and is_accepted(declared), "NotConstructible", declared)


def initialize(declared, x):
    loaded = load(x.type)
    ensure(converts(loaded, declared), "Conversion", loaded, declared)
    return declared


def let(x, declared):
    if declared is None:
        return named_value(x.type)
    accept(declared, can_be_named_value)
    return initialize(declared, x)


def be_constant(x):
    ensure(is_constant(x), "NotConst")


def const(x, declared):
    be_constant(x)
    if declared is not None:
        accept(declared, is_constructible)
        return initialize(declared, x)
    ensure(is_constructible(x.type), "NotConstructible", x.type)
    return x.type


def override(x, declared):
    if x is not None:
        be_constant(x)
    t = concrete(x.type) if declared is None else declared
    ensure(t in ("bool", "i32", "u32", "f32", "f16"), "NotScalar", t)
    return t if x is None else initialize(t, x)


# Variable Declarations

def default_access(space):
    return "read" if space in ("uniform", "storage", "immediate", "handle") else "read_write"


def is_host_shareable(t):
    return not contains(lambda part: part == "bool", t) and (is_atomic(t) or is_made_of(is_host_shareable, t))


def is_made_of(is_part, t):
    """A concrete scalar, or what is made of such parts; arrays have a count."""
    if t in STRUCTS:
        return all(is_part(of) for _, of in STRUCTS[t])
    if element_of(t):
        return not is_runtime_sized(t) and is_part(element_of(t))
    return t in SCALARS + OWN_SCALARS and not is_abstract(t)


def has_fixed_footprint(t):
    return is_atomic(t) or is_made_of(has_fixed_footprint, t)


def without_runtime_sized_end(t):
    """The types of which all must have a fixed size: the element of a runtime-sized array, and the members before it."""
    if is_runtime_sized(t):
        return [element_of(t)]
    members = [of for _, of in STRUCTS.get(t, [])]
    return [*members[:-1], element_of(members[-1])] if members and is_runtime_sized(members[-1]) else [t]


def holds(space, access, t):
    if space in ("function", "private"):
        return is_constructible(t) and not is_abstract(t)
    if space == "workgroup":
        return has_fixed_footprint(t)
    if space == "uniform":
        return is_host_shareable(t) and is_constructible(t)
    if space == "immediate":
        return is_host_shareable(t) and is_constructible(t) and not contains(is_array, t)
    if space == "storage":
        may_be_there = access == "read_write" or not contains(is_atomic, t)
        return may_be_there and all(map(is_host_shareable, without_runtime_sized_end(t)))
    return is_handle(t) or is_binding_array(t)


def hold(space, access, t):
    refusal = ["NotConstructible"] if space in ("function", "private") else ["NotInSpace", space]
    ensure(holds(space, access, t), *refusal, t)


def variable(space, access, x, declared):
    space = space or "function"
    ensure(access is None or (space == "storage" and access in ("read", "read_write")), "AccessMode", space, access)
    access = access or default_access(space)
    ensure(x is None or space in ("function", "private"), "Initialized", space)
    if x is not None and space == "private":
        be_constant(x)
    t = concrete(load(x.type)) if declared is None else declared
    hold(space, access, t)
    if x is not None:
        initialize(t, x)
    return f"ref<{space}, {t}, {access}>"


# Assignment Statement

def store_type(x, accesses, refusal):
    """The type that the reference refers to."""
    ensure(is_reference(x), "NotReference", x)
    _, t, access = memory_of(x)
    ensure(access in accesses, refusal)
    return t


def assign(x, y):
    t = store_type(x, WRITING, "NotWrite")
    ensure(is_constructible(t), "NotConstructible", t)
    return write(t, load(y.type))


def write(t, value):
    ensure(converts(value, t), "WriteRefType", value, t)
    return t


@functools.cache
def overloads():
    return Search(read_facts()[1])


def loaded_if_it_loads(t):
    try:
        return load(t)
    except Refused:
        return t


def assign_by(operator, x, y):
    t = store_type(x, ["read_write"], "NotReadWrite")
    value = loaded_if_it_loads(y.type)
    result = overloads().answer(operator, None, [t, value], False)
    ensure(result != "no overload", "Binary", operator, t, value)
    ensure(result == t, "WriteRefType", result, t)
    return t


# Increment and Decrement Statements

def increment(x):
    t = store_type(x, ["read_write"], "NotReadWrite")
    ensure(t in ("i32", "u32"), "NotInteger", t)
    return t


# Function calls, `return`, conditions

def count(name, types, operands):
    ensure(len(types) == len(operands), "ParamCount", name, len(types), len(operands))


def pass_each(operands, types):
    for x, t in zip(operands, types):
        ensure(converts(load(x.type), t), "ParamType", t, load(x.type))


def fit(name, operands, types):
    for t in types:
        accept(t, can_be_named_value)
    count(name, types, operands)
    pass_each(operands, types)
    return "fits"


def condition(x):
    ensure(load(x.type) == "bool", "NotCondition", load(x.type))
    return "fits"


# Structure and array constructors

def construct(t, operands):
    ensure(is_constructible(t), "NotConstructible", t)
    if operands:
        members = [of for _, of in STRUCTS[t]]
        count(t, members, operands)
        pass_each(operands, members)
    return t


def array_of_elements(operands):
    loaded = [load(x.type) for x in operands]
    ensure(loaded, "Builtin", "array constructor expects at least 1 argument")
    t = common_type(loaded)
    ensure(t is not None, "Builtin", "array elements are incompatible")
    ensure(is_constructible(t), "NotConstructible", t)
    return f"array<{t}, {len(loaded)}>"


def array(element, number, operands):
    t = f"array<{element}>" if number is None else f"array<{element}, {number}>"
    accept(t, is_constructible)
    if operands:
        count("array", [element] * number, operands)
        pass_each(operands, [element] * number)
    return t


# Switch Statement

def switch(selector, *cases):
    types = [integer(x.type) for x in (selector, *cases)]
    for case in cases:
        be_constant(case)
    first, *others = [t for t in types if t != "AbstractInt"] or ["i32"]
    for t in others:
        ensure(t == first, "Conversion", t, first)
    return first


# Address-Of and Indirection Expressions

def address_of(x, is_component):
    ensure(is_reference(x), "Unary", "&", x)
    space, t, access = memory_of(x)
    ensure(space != "handle", "PtrHandle")
    ensure(not is_component, "PtrVecComp")
    return f"ptr<{space}, {t}, {access}>"


def indirection(x):
    ensure(is_pointer(x), "Unary", "*", x)
    return formed(x, behind(x))
