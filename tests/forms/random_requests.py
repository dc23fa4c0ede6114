"""Random requests: the questions of questions.txt with other types, components, operators and constants in place of theirs. A
fifth of them has a type."""
import random
import re

from forms.kinds import is_abstract, is_runtime_sized
from forms.rules import behind
from spelling import OWN_SCALARS, SCALARS, STRUCTS, declarations
from table import texts

SPACES = "function private workgroup uniform storage immediate".split()
ACCESSES = "read write read_write".split()
OPERATORS = "+ - * / % & | ^ << >>".split()
# The scalars of matrices, of atomics and of layouts; elsewhere any may stand.
FLOATS, COUNTERS, SHARED = ["f32", "f16", "AbstractFloat"], ["i32", "u32"], ["i32", "u32", "f32", "f16"]
STORED = {name: [tuple(member.split(": ")) for member in members] for name, *members in texts("tables/random.tsv", "struct")}
# The structs that calls return.
RETURNED = {"__atomic_compare_exchange_result": [("old_value", "i32"), ("exchanged", "bool")]}
for shape, spelled in {"": "%s", "vec2_": "vec2<%s>", "vec3_": "vec3<%s>", "vec4_": "vec4<%s>"}.items():
    for precision, scalar, exponent in ("abstract", "AbstractFloat", "AbstractInt"), ("f32", "f32", "i32"), ("f16", "f16", "i32"):
        RETURNED[f"__frexp_result_{shape}{precision}"] = [("fract", spelled % scalar), ("exp", spelled % exponent)]
        RETURNED[f"__modf_result_{shape}{precision}"] = [("fract", spelled % scalar), ("whole", spelled % scalar)]
STRUCTS.update(STORED | RETURNED)
SCALAR = r"\b(?:bool|Abstract\w+|[iuf]\d\d)\b"
LIST = r"<(?:[^<>]|<(?:[^<>]|<(?:[^<>]|<[^<>]*>)*>)*>)*>"
# A type that isn't called, or a call of a function that returns a struct, which no text spells; behind a colon it is declared.
TYPE = re.compile(rf"(?<!\w)(?:(?:{SCALAR}|(?:vec|mat|array|binding_array|atomic|ptr|ref|texture)\w*{LIST}|(?:sampler|texture_)\w*\b)(?!\(|<)"
                  r"|(?:frexp|modf|atomicCompareExchangeWeak)\([^()]*\))")
FRONT = re.compile(r"(?:struct \w+ \{[^}]*\} )*")


def place_of(text, at):
    """Where a type stands: in a struct that is laid out, where types are declared or inside of another, or as an operand."""
    if "layout" in text:
        return "laid out"
    return "declared" if text[:at].endswith((": ", "<")) else "operand"


def spans(text):
    """The types in a question, behind the structs that it declares."""
    return [match for match in TYPE.finditer(text) if match.start() >= FRONT.match(text).end()]


class Random(random.Random):
    def __init__(self, seed):
        super().__init__(seed)
        self.questions, self.types = [request for request, *_ in texts("forms/questions.txt")], {}
        for request in self.questions:
            for match in spans(request):
                self.types.setdefault(place_of(request, match.start()), []).append(match[0])
        # One with an attribute for its size has a size.
        self.types["laid out"] = [t for t in self.types["laid out"] if not is_runtime_sized(t)]

    def scalar(self, around, scalars):
        if around.startswith("mat"):
            return self.choice(FLOATS[: 2 if scalars is SHARED else 3])
        return self.choice(COUNTERS if around == "atomic<" else OWN_SCALARS if self.random() < 0.04 else scalars)

    def near(self, t, scalars=SCALARS):
        """The type with other scalars, numbers, address spaces and access modes now and then."""
        if re.search(r"texture|sampler|handle|\(", t):
            return t
        for pattern, others in (r"(?<=vec)\d", "234"), (rf"\b(?:{'|'.join(SPACES)})\b", SPACES), (r"\b(?:read|write|read_write)\b(?=>)", ACCESSES):
            if self.random() < 0.2:
                t = re.sub(pattern, self.choice(others), t)
        if self.random() < 0.6:
            t = re.sub(rf"(mat\dx\d<|atomic<|)({SCALAR})", lambda found: found[1] + self.scalar(found[1], scalars), t)
        return t

    def other(self, place):
        """What may stand in place of a type: mostly one of another question."""
        if place != "laid out" and self.random() < 0.15:
            return self.choice([*STORED])
        return self.choice(self.types[place])

    def retyped(self, text):
        """The question with some of its types exchanged, or changed a little."""
        front, found, often = FRONT.match(text).end(), spans(text), self.choice([0.1, 0.1, 0.4])
        for match in reversed(found):
            t, (start, end), place = match[0], match.span(), place_of(text, match.start())
            is_layout = place == "laid out"
            if self.random() < often / 2 and not (is_layout and match is found[-1] or text[:start].endswith("const ")):
                t = self.other(place)
            if self.random() < often:
                t = self.near(t, SHARED if is_layout else SCALARS)
            if place == "operand" and start > front and self.random() < often / 4 and re.search(r"(?<!const)[ \[(]$", text[:start]):
                t = "const " + t if "(" not in t else t
            text = text[:start] + t + text[end:]
        return text

    def renamed(self, text):
        """The question with one scalar in place of another everywhere, of which all then agree as before."""
        some, other = self.choice(SCALARS), self.choice(SCALARS)
        if re.search(r"mat\d|atomic|texture|frexp|modf|layout", text) or self.random() < 0.5:
            return text
        return re.sub(rf"\b{some}\b", other, text)

    def component(self):
        letters = self.choice(["xyzw", "rgba", "xyzwrgbatu"])[: self.randrange(2, 11)]
        return "." + "".join(self.choices(letters, k=self.choice([1, 1, 1, 2, 3, 4, 5])))

    def request(self):
        """A request behind the structs that it doesn't declare itself; None if one of its own is in these."""
        text = self.retyped(self.renamed(self.choice(self.questions)))
        if self.random() < 0.3:
            text = re.sub(r"\.[a-z]+\b", self.component(), text)
        if self.random() < 0.2:
            text = re.sub(r"\bconst (?!x\b)", "", text)
        text = re.sub(r" [-+*/%&|^<>]+= ", lambda same: f" {self.choice(OPERATORS)}= " if self.random() < 0.4 else same[0], text)
        own = re.findall(r"struct (\w+)", text)
        front = declarations(word for word in re.findall(r"\w+", text) if word not in own)
        return None if set(own) & set(re.findall(r"struct (\w+)", front)) else front + text


def is_asked(text):
    """Whether the rules answer: of memory of an abstract type no rule says if its value is constant, and vectors of scalars of 64 bits
    may have no alignment."""
    is_own = not set(re.findall(r"\w+", text)).isdisjoint(OWN_SCALARS)
    if re.search(r" [-+*/%&|^<>]+= ", text):
        to = TYPE.search(text, FRONT.match(text).end())
        return not is_own and not (to and is_abstract(behind(to[0])))
    return not (is_own and "layout" in text)


def random_requests(count, seed=1):
    """Requests, each once."""
    found, requests = Random(seed), {}
    while len(requests) < count:
        text = found.request()
        if text and is_asked(text):
            requests[text] = None
    return list(requests)
