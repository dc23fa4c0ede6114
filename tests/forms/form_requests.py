"""What the rules answer to a request in WGSL. Its expressions, whose operands are types, are read as in tests/expression."""
from collections import namedtuple

from expression.grammar import Reader
from forms import rules
from forms.kinds import element_of, is_abstract
from forms.rules import Refused
from forms.runtime_layouts import ATTRIBUTES, layout
from spelling import STRUCTS, split_list

SIGNS = set("+-*/%&|^<>") | {"<<", "--"}  # what stands in front of the `=` of an assignment
# A type, and whether the request says `const` in front of it.
Operand = namedtuple("Operand", "type says_const")


def spelled(name, inside):
    return name if inside is None else f"{name}<{inside}>"


def operand(node):
    """A type, with `const` in front or not; or a call of a function that returns a struct, which no text spells."""
    if node.kind == "operand":
        named, says_const = node.what
        return Operand(spelled(*named), says_const)
    (name, _), (x, *_) = node.what, map(operand, node.parts)
    if name == "atomicCompareExchangeWeak":
        return Operand("__atomic_compare_exchange_result", False)
    shape, scalar = (f"{x.type[:4]}_", element_of(x.type)) if element_of(x.type) else ("", x.type)
    return Operand(f"__{name}_result_{shape}{'abstract' if is_abstract(scalar) else scalar}", x.says_const)


def of_expression(node):
    operands = [operand(part) for part in node.parts if part.kind in ("operand", "call")]
    types = [x.type for x in operands]
    if node.kind == "member":
        return rules.member(*types, node.what)
    if node.kind == "index":
        return rules.index(types[0], operands[1])
    if node.kind == "call":
        return of_constructor(*node.what, operands)
    if node.what == "*":
        return rules.indirection(*types)
    return rules.address_of(*types, False) if types else rules.address_of(of_expression(node.parts[0]), True)


def of_constructor(name, inside, operands):
    if name != "array":
        return rules.construct(name, operands)
    if inside is None:
        return rules.array_of_elements(operands)
    element, *count = split_list(inside)
    return rules.array(element, *(map(int, count) if count else [None]), operands)


class Request(Reader):
    """The tokens of a request that aren't read yet."""

    def word(self):
        self.taken += 1
        return self.tokens[self.taken - 1][0]

    def type(self):
        name = self.word()
        return spelled(name, self.list(name))

    def operand(self):
        return operand(self.expression())

    def all_until(self, end, item):
        """Items with commas behind them up to the end, which is taken."""
        items = []
        while not self.take(end):
            items.append(item())
            self.take(",")
        return items

    def attribute(self):
        """`size(16)`, behind its `@`."""
        name, _, value, _ = (self.word() for _ in range(4))
        return name, int(value)

    def member(self, struct):
        attributes = {}
        while self.take("@"):
            attributes.update([self.attribute()])
        name = self.word()
        ATTRIBUTES[struct, name] = attributes.get("size"), attributes.get("align")
        return name, self.declared()

    def struct(self):
        name = self.word()
        self.expect("{")
        STRUCTS[name] = self.all_until("}", lambda: self.member(name))
        return name

    def declared(self):
        """The type behind a colon, if there is one."""
        return self.type() if self.take(":") else None

    def named_type(self):
        """The type behind a name, if there is one."""
        self.word()
        return self.declared()

    def initialized(self):
        """The value of what is declared, and its type; None for what isn't there."""
        t = self.named_type()
        return self.operand() if self.take("=") else None, t

    def variable(self):
        space, access, *_ = [*split_list(self.list("var") or ""), None, None]
        return rules.variable(space, access, *self.initialized())

    def switch(self):
        x, cases = self.operand(), []
        self.expect("{")
        if self.take("case"):
            cases = self.all_until("{", self.operand)
        self.taken = len(self.tokens)  # the rest has no operand
        return rules.switch(x, *cases)

    def fit(self):
        """A function, and a call of it."""
        name = self.word()
        self.expect("(")
        types = self.all_until(")", self.named_type)
        self.expect(name)
        self.expect("(")
        return rules.fit(name, self.all_until(")", self.operand), types)

    def condition(self):
        x = self.operand()
        self.expect("{")
        self.expect("}")
        return rules.condition(x)

    def phony(self):
        self.expect("=")
        return rules.named_value(self.operand().type)

    def layout(self):
        self.expect("struct")
        return layout(self.struct())

    def assignment(self):
        x, operator = self.unary(), ""
        while self.next()[0] in SIGNS:
            operator += self.word()
            if operator in ("++", "--"):
                return rules.increment(operand(x).type)
        self.expect("=")
        if operator:
            return rules.assign_by(operator, operand(x).type, self.operand())
        return rules.assign(operand(x).type, self.operand())

    def answer(self):
        forms = {
            "type": lambda: of_expression(self.expression()),
            "load": lambda: rules.load(self.operand().type),
            "_": self.phony,
            "let": lambda: rules.let(*self.initialized()),
            "const": lambda: rules.const(*self.initialized()),
            "override": lambda: rules.override(*self.initialized()),
            "var": self.variable,
            "if": self.condition,
            "switch": self.switch,
            "fn": self.fit,
            "layout": self.layout,
        }
        while self.take("struct"):
            self.struct()
        head = self.take(*forms)
        return forms[head[0]]() if head else self.assignment()


def answer(text):
    """The type, or `refused`, a tab and the refusal."""
    request = Request(text)
    try:
        found = request.answer()
    except Refused as refusal:
        return f"refused\t{refusal}"
    if request.taken < len(request.tokens):
        raise ValueError(f"tokens are left of {text}: {request.tokens[request.taken:]}")
    return found
