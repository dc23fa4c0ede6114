"""The facts: which candidates WGSL has. And what the repository has instead, with the reason for each difference."""
import re
from collections import Counter

from overloads.signatures import candidates, name_of
from programs import read

TEXEL_FORMATS, NAMES = "crates/wgsl_syntax/src/texel.rt", "crates/wgsl_syntax/src/tables/names.rt"
SIGNATURES, BUILT_INS = "tests/overloads/wgsl.txt", "tests/lines/built_ins.txt"

# naga's name of a texel format, and WGSL's.
NAGA_NAMES = {"rg11b10float": "rg11b10ufloat"}
# naga's texel format, with the type of its channels.
OWN_FORMATS = {"r64uint": "u32"}
# naga's functions of ray queries, which have no overloads.
OWN_FUNCTIONS = """getCandidateHitVertexPositions getCommittedHitVertexPositions rayQueryConfirmIntersection
rayQueryGenerateIntersection rayQueryGetCandidateIntersection rayQueryGetCommittedIntersection rayQueryInitialize
rayQueryProceed rayQueryTerminate""".split()
# naga's scalars of 64 bits, each made of any scalar, and of nothing.
OWN_LINES = {name: [f"{name}(T) -> {name}, T: scalar", f"{name}() -> {name}"] for name in ("i64", "u64", "f64")}


def converts_abstract_matrix(name, candidate):
    """A matrix with a template is made of a matrix of any float, AbstractFloat too. In WGSL such a matrix first becomes one
    of f32, or of the template's type. The result is the same."""
    template, parameters, _ = candidate
    return template is not None and parameters == (f"{name}<AbstractFloat>",)


def has_own_format(_, candidate):
    """A storage texture may have one of naga's formats."""
    return any(f"<{own}, " in parameter for own in OWN_FORMATS for parameter in candidate[1])


def has_abstract_template(_, candidate):
    """A template that is abstract can't be written, and is refused here."""
    template = candidate[0]
    return template is not None and "Abstract" in template


def casts_abstract_integer(name, candidate):
    """Here the AbstractInt in `bitcast<u32>(1)` converts to i32, and in WGSL it stays. The result is the same."""
    return name == "bitcast" and "AbstractInt" in candidate[1][0]


# The candidates that the repository has and WGSL has not, and those that WGSL has and the repository has not.
OWN_CANDIDATES = [converts_abstract_matrix, has_own_format]
LEFT_OUT = [has_abstract_template, casts_abstract_integer]


def wgsl_formats(rows):
    """Each texel format of WGSL, with the type of its channels."""
    formats = {}
    for row in rows:
        if match := re.fullmatch(r"format of (\w+): (.*)", row):
            formats.update({f: match[1] for f in match[2].split()})
    return formats


def read_facts():
    """The formats, and for each name its set of candidates."""
    rows = [row for row in read(SIGNATURES).splitlines() if row and not row.startswith("#")]
    formats = wgsl_formats(rows)
    table = {}
    for row in rows:
        if not row.startswith("format of "):
            table.setdefault(name_of(row), set()).update(candidates(row, formats))
    return formats, table


def repository_formats():
    table = re.search(r"TEXELS: .*?\{(.*?)\}", read(TEXEL_FORMATS), re.DOTALL)[1]
    return {NAGA_NAMES.get(f, f) for f in re.findall(r'"(\w+)"', table)}


def repository_functions():
    return set(re.findall(r"^call (\w+)", read(BUILT_INS), re.MULTILINE))


def table_names():
    """The functions and constructors that have a table."""
    return set(re.findall(r'\("(\w+)", (?:\w+, )?\w+\)', read(NAMES)))


def spelled(name, candidate):
    template, parameters, answer = candidate
    return f"{name}{f'<{template}>' if template else ''}({', '.join(parameters)}) -> {answer}"


def compare_names(formats, table):
    """The texel formats and the functions of the repository are WGSL's, but for its own."""
    if repository_formats() != set(formats) | set(OWN_FORMATS):
        yield f"texel formats differ: {sorted(repository_formats() ^ set(formats))}"
    if repository_functions() - set(table) != set(OWN_FUNCTIONS):
        yield f"functions that are not WGSL's: {sorted(repository_functions() - set(table))}"


def compare_candidates(formats, table, printed):
    """Compares the candidates of each name with those of the signatures that the program printed for it."""
    applied = set()
    for name, lines in printed.items():
        counted = Counter(candidate for line in lines for candidate in candidates(line, {**formats, **OWN_FORMATS}))
        yield from (f"stands twice: {spelled(name, candidate)}" for candidate, times in counted.items() if times > 1)
        yield from (f"{line} stands at {name}" for line in lines if name_of(line) != name)
        if name in OWN_LINES:
            if lines != OWN_LINES[name]:
                yield f"{name} has the overloads {lines}, and not {OWN_LINES[name]}"
            continue
        own, wgsl = set(counted), table.get(name, set())
        for fault, extra, reasons in ("is missing", wgsl - own, LEFT_OUT), ("is not WGSL's", own - wgsl, OWN_CANDIDATES):
            for candidate in sorted(extra, key=str):
                known = [reason for reason in reasons if reason(name, candidate)]
                applied.update(known)
                if not known:
                    yield f"{fault}: {spelled(name, candidate)}"
    yield from (f"never applies: {reason.__name__}" for reason in OWN_CANDIDATES + LEFT_OUT if reason not in applied)
