"""Types as WGSL spells them, and the same types in the words of wgsl_check."""
import functools

SCALARS = "bool AbstractInt AbstractFloat i32 u32 f32 f16".split()
OWN_SCALARS = "i64 u64 f64".split()  # naga's, of which the search for overloads knows nothing
STRUCTS = {
    "Light": [("color", "vec3<f32>"), ("level", "f32")],
    "Counter": [("count", "atomic<u32>")],
    "Row": [("length", "u32"), ("cells", "array<f32>")],
}


def split_list(text):
    """The parts of a list between commas that stand in no brackets."""
    parts, depth = [""], 0
    for c in text:
        depth += (c in "<(") - (c in ">)")
        if c == "," and depth == 0:
            parts.append("")
        else:
            parts[-1] += c
    return [part.strip() for part in parts if part.strip()]


@functools.cache
def parts_of(t):
    """The name of a type, and what stands in its brackets."""
    name, _, rest = t.strip().partition("<")
    return name, tuple(split_list(rest[:-1]))


@functools.cache
def words(t):
    """The type in the words of wgsl_check. A struct that isn't listed has no members."""
    name, parts = parts_of(t)
    if name in ("ptr", "ref"):
        space, inner, access = parts
        return f"{name} {space} {access} {words(inner)}"
    if name in ("array", "binding_array"):
        return f"{name} {parts[1] if len(parts) > 1 else '*'} {words(parts[0])}"
    if name.startswith("vec"):
        return f"vec {name[3]} {words(parts[0])}"
    if name.startswith("mat"):
        return f"mat {name[3]} {name[5]} {words(parts[0])}"
    if name in ("ray_query", "acceleration_structure"):
        return f"{name} {parts[0] if parts else '-'}"
    if name in STRUCTS or name[0].isupper() and name not in SCALARS:
        members = STRUCTS.get(name, [])
        return f"struct {name} {len(members)}" + "".join(f" {member} - - {words(of)}" for member, of in members)
    return " ".join([name, *map(words, parts)])


def structs_in(t):
    """The structs that a type is made of, each behind those inside it."""
    name, parts = parts_of(t)
    inside = [of for _, of in STRUCTS[name]] if name in STRUCTS else parts
    found = [struct for part in inside for struct in structs_in(part)]
    return [*found, name] if name in STRUCTS else found


def declarations(types):
    """What declares the structs that types are made of, to stand in front of a request."""
    names = dict.fromkeys(name for t in types for name in structs_in(t))
    return "".join(f"struct {name} {{ {', '.join(map(': '.join, STRUCTS[name]))} }} " for name in names)


def is_abstract(t):
    return "Abstract" in t and not t.startswith("ptr")


def is_value(t):
    """Whether an expression of this type can be a const-expression."""
    return t in SCALARS or t in STRUCTS or parts_of(t)[0].startswith(("vec", "mat", "array"))
