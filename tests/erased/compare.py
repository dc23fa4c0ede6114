"""Reads each proved source and the Rust that was made of it, token by token: they differ by nothing but what stands here. It
shares no code with the eraser."""
import glob
import os
import re

from programs import read

LEXER = re.compile(
    r"""//[^\n]*|/\*.*?\*/|\s+|(b?"(?:[^"\\]|\\.)*"|b?'(?:[^'\\\n]|\\(?:x..|u\{[^}]*\}|.))'|'\w+|\w+|::|.)""", re.S)
DATA = ["Clone", "Debug", "PartialEq", "Eq", "Hash"]
PRELUDE = "# [ allow ( unused_imports ) ] use crate :: shim :: prelude :: * ;".split(" ")
SEEN = """wgsl_syntax wgsl_core wgsl_calls wgsl_standard::Declaration wgsl_standard::Referent wgsl_reader::Event wgsl_reader::Kind
wgsl_reader::Mark wgsl_reader::Misread wgsl_reader::Rule wgsl_reader::Token wgsl_source::Stage wgsl_report::Place""".split()  # with all derives
PREFIXED = {  # names that Rust has for something else, or not in older compilers, behind a `.` or behind their type
    ".": "push push_str push_reserved extend_from_slice insert reserve to_string cast_signed cast_unsigned is_multiple_of".split(),
    "Box": ["new", "into_inner"], "Vec": ["new", "with_capacity"], "String": ["new", "from_str"], "BTreeMap": ["new"], "BTreeSet": ["new"]}
END = [""] * 8  # behind the last token


def lex(text):
    """The tokens but comments, and the line of each."""
    found = [(m.group(1), text.count("\n", 0, m.start()) + 1) for m in LEXER.finditer(text) if m.group(1)]
    return [token for token, _ in found], [line for _, line in found]


def close(tokens, i):
    """The index of the bracket that closes the one at i."""
    depth = 0
    while True:
        depth += (tokens[i] in "([{") - (tokens[i] in ")]}")
        if depth == 0:
            return i
        i += 1


def is_word(token):
    return re.fullmatch(r"\w+", token) is not None


def left_out(a, i):
    """Where what must be left out at i ends, if something must."""
    first = i + (a[i] == "pub")
    if a[first] == "ghost" and is_word(a[first + 1]):
        while a[first] not in (";", ","):
            first = close(a, first) + 1 if a[first] in "([{" else first + 1
        return first + 1
    if a[i] in ("requires", "ensures"):
        while a[i] != "{":
            i += 1
        return close(a, i) + 1
    if a[i] == "#":
        bracket = i + 1 + (a[i + 1] == "!")
        if a[bracket + 1] in ("tactic", "cycle") or a[bracket + 1:bracket + 4] == ["unsafe", "(", "no_mangle"]:
            return close(a, bracket) + 1
        if a[i:i + 7] == "# [ cfg ( test ) ]".split(" "):
            return i + 10
    if a[i:i + 2] == ["extern", '"C"']:
        return i + 2
    if a[i:i + 3] == ["<", "W", ":"] and a[i - 2] == "fn":
        ends = [n for n in (5, 7) if a[i + n - 2:i + n] == ["Write", ">"]]
        parameters = a[i + ends[0]:close(a, i + ends[0])] if ends else []
        if "Formatter" in parameters:
            return i + ends[0]
    return None


def derives(a, i, crate, written_out):
    """The derives that are to stand for those at i."""
    end = close(a, i + 3)
    had = [token for token in a[i + 4:end] if token not in (",", "Drop")]
    name = next(a[k + 1] for k in range(end, len(a)) if a[k] in ("struct", "enum"))
    is_seen = crate in SEEN or f"{crate}::{name}" in SEEN
    return had + [of for of in DATA if is_seen and of not in had and (of, name) not in written_out]


def otherwise(a, i, crate):
    """What must stand for the token at i, or else what may."""
    before = a[i - 1] if i else ""
    if a[i] == "crate" and a[i + 1] == "::":
        return [["crate", "::", "proved", "::", crate]], True
    if a[i - 2:i] == ["Formatter", "<"]:
        return [["'_"]], True
    if a[i] == "Ty" and a[i - 2:i] in (["TpltParam", "::"], ["TpltParam", "{"]):
        return [["Type"]], True
    if a[i:i + 3] == ["fn", "main", "("]:
        return [["pub", "(", "crate", ")", "fn"]], True
    of_type = a[i - 2] if before == "::" and i > 1 else before
    of_type = "." if before == "fn" and "self" in a[i + 2:i + 5] else of_type
    if a[i] in PREFIXED.get(of_type, []) and a[i + 1] in ("(", "::"):
        return [["rattle_" + a[i]]], True
    if before in (".", "::", "fn") and a[i + 1] == "(" and is_word(a[i]):
        arguments = a[i + 1:close(a, i + 1)]
        if "Global" in arguments or "alloc" in arguments:
            return [["rattle_" + a[i]]], False
    if a[i] == "pub" and a[i + 1] == "fn":
        return [["pub", "(", "crate", ")"]], False
    return [], False


def difference(a, b, crate, written_out):
    """The index of the first token of a source that isn't in what was made of it as it must; None if there is none."""
    a, b = a + END, b + END
    i = j = 0
    has_prelude = False
    while a[i] or b[j]:
        if not has_prelude and b[j:j + len(PRELUDE)] == PRELUDE:
            j, has_prelude = j + len(PRELUDE), True
            continue
        end = left_out(a, i) if a[i] else None
        if end:
            i = end
            continue
        if a[i:i + 4] == ["#", "[", "derive", "("]:
            wanted = "# [ derive (".split(" ") + " , ".join(derives(a, i, crate, written_out)).split() + [")", "]"]
            if b[j:j + len(wanted)] != wanted:
                return i
            i, j = close(a, i + 1) + 1, j + len(wanted)
            continue
        wanted, must = otherwise(a, i, crate) if a[i] else ([], False)
        found = next((tokens for tokens in wanted if b[j:j + len(tokens)] == tokens), None)
        if found:
            i, j = i + 1, j + len(found)
        elif a[i] == b[j] and not must:
            i, j = i + 1, j + 1
        else:
            return i
    return None if has_prelude else 0


class Source:
    """A source, and what was made of it."""

    def __init__(self, path, made, crate):
        self.path, self.crate = path, crate
        (self.tokens, self.lines), (self.made, _) = lex(read(path)), lex(read(made))

    def fault(self, made, written_out):
        """Where the source and tokens of Rust differ by more than they must, in words."""
        i = difference(self.tokens, made, self.crate, written_out)
        if i is None:
            return None
        line = self.lines[min(i, len(self.lines) - 1)]
        return f"{self.path}:{line}: what was made of `{' '.join(self.tokens[i:i + 6])}` is something else"


def sources(crates, made):
    """The sources of the crates that were made into Rust, and what was made of each."""
    for name in re.findall(r"^pub mod (\w+);$", read(made, "proved.rs"), re.M):
        top = os.path.join(crates, name, "src")
        for path in sorted(glob.glob(os.path.join(top, "**", "*.rt"), recursive=True)):
            inner = os.path.relpath(path, top)[:-3]
            if inner.split(os.sep)[0] != "tests":
                to = name if inner in ("lib", "main") else os.path.join(name, inner)
                yield Source(path, os.path.join(made, to + ".rs"), name)


def written_out(all_sources):
    """The traits and types of each `impl Trait for Type`."""
    found = set()
    for source in all_sources:
        t = source.tokens
        found |= {(t[k - 1], t[k + 1]) for k in range(2, len(t) - 1) if t[k] == "for" and t[k - 2] == "impl"}
    return found


def changed(random, tokens):
    """Tokens of which one is left out, doubled, replaced by another, or exchanged with the next."""
    k = random.randrange(len(tokens) - 1)
    change = random.randrange(4)
    if change == 0:
        return tokens[:k] + tokens[k + 1:]
    if change == 1:
        return tokens[:k] + [random.choice(tokens)] + tokens[k:]
    if change == 2:
        return tokens[:k] + [random.choice(tokens)] + tokens[k + 1:]
    return tokens[:k] + [tokens[k + 1], tokens[k]] + tokens[k + 2:]
