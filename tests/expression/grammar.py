"""Expressions by WGSL's grammar, a function for each of its rules: what `type EXPRESSION` has to read."""
import re
from collections import namedtuple

TOKEN = re.compile(
    r"(?P<comment>/\*.*?\*/|//.*)|(?P<open>/\*)"
    r"|(?P<number>0[xX][0-9a-fA-F]*\.?[0-9a-fA-F]*(?:[pP][+-]?)?\w*|(?:[0-9]+\.?[0-9]*|\.[0-9]+)(?:[eE][+-]?[0-9]+)?\w*)"
    r"|(?P<name>[^\W\d]\w*)|(?P<sign>&&|\|\||<<|<=|==|!=|--(?=\s*(?:\)|$))|\S)"
)
FLOAT = r"(?:[0-9]+\.[0-9]*|\.[0-9]+)(?:[eE][+-]?[0-9]+)?|[0-9]+[eE][+-]?[0-9]+"
HEX = r"0[xX](?:[0-9a-fA-F]+\.[0-9a-fA-F]*|\.[0-9a-fA-F]+)(?:[pP][+-]?[0-9]+)?|0[xX][0-9a-fA-F]+[pP][+-]?[0-9]+"
INTEGER = r"0|[1-9][0-9]*|0[xX][0-9a-fA-F]+"
LITERALS = [
    (rf"{INTEGER}", "AbstractInt"),
    (rf"(?:{INTEGER})i", "i32"),
    (rf"(?:{INTEGER})u", "u32"),
    (rf"{FLOAT}|{HEX}", "AbstractFloat"),
    (rf"(?:{FLOAT}|0|[1-9][0-9]*)f|0[xX][0-9a-fA-F.]+[pP][+-]?[0-9]+f", "f32"),
    (rf"(?:{FLOAT}|0|[1-9][0-9]*)h|0[xX][0-9a-fA-F.]+[pP][+-]?[0-9]+h", "f16"),
]
SIZED = re.compile(r"\b(?:vec|mat)([0-9x]+)<")
SIZES = re.compile(r"[234](?:x[234])?")
RELATIONAL = "<", "<=", ">", ">=", "==", "!="


class NoExpression(Exception):
    """A text that is no expression."""


def ensure(is_one):
    if not is_one:
        raise NoExpression


# A part of an expression: the index of its first byte, what it is, and its parts.
Node = namedtuple("Node", "at kind what parts", defaults=[()])


def literal(text):
    return next((ty for pattern, ty in LITERALS if re.fullmatch(pattern, text)), None)


class Reader:
    def __init__(self, text):
        found = [(m.group(), m.start(), m.lastgroup) for m in TOKEN.finditer(text)]
        ensure(not any(kind == "open" for _, _, kind in found))
        self.tokens = [token for token in found if token[2] != "comment"]
        self.taken = 0
        self.operands = []  # where the types begin and end that stand for operands

    def next(self, behind=0):
        index = self.taken + behind
        return self.tokens[index] if index < len(self.tokens) else ("", -1, "end")

    def take(self, *texts):
        if self.next()[0] in texts:
            self.taken += 1
            return self.tokens[self.taken - 1]
        return None

    def expect(self, text):
        ensure(self.take(text))

    def operator(self):
        """The binary operator that comes next, and how many tokens it has."""
        text, at, _ = self.next()
        more, behind, _ = self.next(1)
        if text == ">" and behind == at + 1 and more in (">", "="):
            return text + more, 2
        return text, 1

    def one_binary(self, operators, left, right):
        """The operator of a rule that comes next with what stands right of it, or else the left operand alone."""
        text, count = self.operator()
        if text not in operators:
            return left
        at = self.next()[1]
        self.taken += count
        return Node(at, "binary", text, [left, right()])

    def binary(self, operators, left, right):
        """Such operators, as long as they come."""
        while (found := self.one_binary(operators, left, right)) is not left:
            left = found
        return left

    def whole(self):
        expression = self.expression()
        ensure(self.taken >= len(self.tokens))
        return expression

    def expression(self):
        first = self.unary()
        for operator in "&", "^", "|":
            if self.operator()[0] == operator:
                return self.binary([operator], first, self.unary)
        left = self.relational(first)
        for operator in "&&", "||":
            if self.operator()[0] == operator:
                return self.binary([operator], left, lambda: self.relational(self.unary()))
        return left

    def relational(self, first):
        return self.one_binary(RELATIONAL, self.shift(first), lambda: self.shift(self.unary()))

    def shift(self, first):
        return self.one_binary(("<<", ">>"), first, self.unary) if self.operator()[0] in ("<<", ">>") else self.additive(first)

    def additive(self, first):
        return self.binary(("+", "-"), self.multiplicative(first), lambda: self.multiplicative(self.unary()))

    def multiplicative(self, first):
        return self.binary(("*", "/", "%"), first, self.unary)

    def unary(self):
        operator = self.take("!", "-", "~", "*", "&")
        if operator:
            return Node(operator[1], "unary", operator[0], [self.unary()])
        return self.postfix(self.primary())

    def postfix(self, x):
        while True:
            bracket = self.take("[")
            if bracket:
                index = self.expression()
                self.expect("]")
                x = Node(bracket[1], "index", None, [x, index])
            elif self.take("."):
                text, at, kind = self.next()
                ensure(kind == "name")
                self.taken += 1
                x = Node(at, "member", text, [x])
            else:
                return x

    def primary(self):
        text, at, kind = self.next()
        self.taken += 1
        if text == "(":
            x = self.expression()
            self.expect(")")
            return x
        if kind == "number":
            ensure(literal(text))
            return Node(at, "operand", (literal(text), True))
        if text in ("true", "false"):
            return Node(at, "operand", ("bool", True))
        if text == "const" and self.next()[2] == "name":
            name, _, _ = self.next()
            self.taken += 1
            return self.noted(at, (name, self.list(name)), True)
        ensure(kind == "name" and text != "const")
        named = text, self.list(text)
        if not self.take("("):
            return self.noted(at, named, False)
        return Node(at, "call", named, self.arguments())

    def noted(self, at, named, is_constant):
        text, last, _ = self.tokens[self.taken - 1]
        self.operands.append((at, last + len(text)))
        return Node(at, "operand", (named, is_constant))

    def arguments(self):
        values = []
        while not self.take(")"):
            values.append(self.expression())
            if not self.take(","):
                self.expect(")")
                break
        return values

    def list(self, name):
        """What stands between angle brackets behind a name, if they are closed and have only names, numbers and commas in them."""
        if self.next()[0] != "<":
            return None
        depth, texts, before, is_list = 0, [], None, True
        for behind in range(1, len(self.tokens) - self.taken):
            text, _, kind = self.next(behind)
            if text == ">" and depth == 0:
                ensure(is_list)
                self.taken += behind + 1
                text = "".join(texts).replace(", >", ">").removesuffix(", ")
                ensure(not any(not SIZES.fullmatch(size) for size in SIZED.findall(f"{name}<{text}")))
                return text
            if text not in ("<", ">", ",") and kind not in ("name", "number"):
                return None
            is_list &= kind == "sign" or before in ("sign", None)
            before = kind
            depth += {"<": 1, ">": -1}.get(text, 0)
            texts.append(", " if text == "," else text)
        return None
