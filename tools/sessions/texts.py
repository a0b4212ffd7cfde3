"""Formulas as people write them, for writing sessions and their comments.

    main(x, y) = let a be x - 2 in if y < a then twice(tell a, y) else x

tell holds most tightly, then * and /, then + and -, then = and <, of which there is at most one in a row;
let and if reach as far as they can.
"""

import re

from expressions import ADD, BELOW, DIVIDE, EQUAL, MULTIPLY, SUBTRACT, Bin, Call, Function, If, Let, Num, Tell, Var

SIGNS = {"+": ADD, "-": SUBTRACT, "*": MULTIPLY, "/": DIVIDE, "=": EQUAL, "<": BELOW}
SIGN_OF = {op: sign for sign, op in SIGNS.items()}
KEYWORDS = {"let", "be", "in", "if", "then", "else", "tell"}
TOKEN = re.compile(r"\s*([A-Za-z_][A-Za-z0-9_]*|[0-9]+|[-+*/=<(),])")
PLAIN = re.compile(rb"[A-Za-z_][A-Za-z0-9_]*\Z")


class Reader:
    def __init__(self, text):
        self.tokens = TOKEN.findall(text)
        assert "".join(self.tokens) == re.sub(r"\s", "", text), text

    def peek(self):
        return self.tokens[0] if self.tokens else None

    def take(self, *wanted):
        """The next token, if it is one of these."""
        return self.tokens.pop(0) if self.peek() in wanted else None

    def need(self, wanted):
        assert self.take(wanted), f"{wanted} is missing before {self.tokens}"

    def name(self):
        word = self.tokens.pop(0)
        assert PLAIN.match(word.encode()) and word not in KEYWORDS, word
        return word.encode()

    def expr(self):
        if self.take("let"):
            return self.let()
        if self.take("if"):
            return self.choice()
        left = self.sum()
        sign = self.take("=", "<")
        return Bin(SIGNS[sign], left, self.sum()) if sign else left

    def let(self):
        name = self.name()
        self.need("be")
        first = self.expr()
        self.need("in")
        return Let(name, first, self.expr())

    def choice(self):
        condition = self.expr()
        self.need("then")
        then = self.expr()
        self.need("else")
        return If(condition, then, self.expr())

    def sum(self):
        return self.row_of(self.product, "+", "-")

    def product(self):
        return self.row_of(self.atom, "*", "/")

    def row_of(self, operand, *signs):
        left = operand()
        while sign := self.take(*signs):
            left = Bin(SIGNS[sign], left, operand())
        return left

    def atom(self):
        if self.take("tell"):
            return Tell(self.atom())
        if self.take("("):
            inner = self.expr()
            self.need(")")
            return inner
        if self.peek().isdigit():
            return Num(int(self.tokens.pop(0)))
        name = self.name()
        return Call(name, self.list_of(self.expr)) if self.take("(") else Var(name)

    def list_of(self, item):
        """What stands between brackets, after the first of them."""
        found = []
        while not self.take(")"):
            found.append(item())
            if self.peek() != ")":
                self.need(",")
        return tuple(found)

    def function(self):
        name = self.name()
        self.need("(")
        own_names = self.list_of(self.name)
        self.need("=")
        return Function(name, own_names, self.expr())


def function(text):
    reader = Reader(text)
    found = reader.function()
    assert not reader.tokens, text
    return found


def program(text):
    """Functions, a line or more to each."""
    reader = Reader(text)
    found = []
    while reader.tokens:
        found.append(reader.function())
    return tuple(found)


# Writing: a part has brackets if it holds less tightly than is asked where it stands.


def name_text(name):
    if PLAIN.match(name) and name.decode() not in KEYWORDS:
        return name.decode()
    return '"' + "".join(byte_text(byte) for byte in name) + '"'


def byte_text(byte):
    plain = 32 <= byte <= 126 and byte not in b'"\\'
    return chr(byte) if plain else f"\\{byte:02x}"


WHOLE, SUM, PRODUCT, ATOM = range(4)


def tightness(expr):
    match expr:
        case Let() | If():
            return WHOLE
        case Bin():
            return {ADD: SUM, SUBTRACT: SUM, MULTIPLY: PRODUCT, DIVIDE: PRODUCT}.get(expr.op, WHOLE)
        case _:
            return ATOM


def asked_of(op):
    """How tightly the left and the right operand have to hold."""
    return {ADD: (SUM, PRODUCT), SUBTRACT: (SUM, PRODUCT), MULTIPLY: (PRODUCT, ATOM), DIVIDE: (PRODUCT, ATOM)}.get(op, (SUM, SUM))


def expr_text(expr, asked=WHOLE):
    text = bare_text(expr)
    return text if tightness(expr) >= asked else f"({text})"


def bare_text(expr):
    match expr:
        case Num():
            return str(expr.value)
        case Var():
            return name_text(expr.name)
        case Bin():
            left, right = asked_of(expr.op)
            return f"{expr_text(expr.left, left)} {SIGN_OF[expr.op]} {expr_text(expr.right, right)}"
        case Call():
            return f"{name_text(expr.name)}({', '.join(map(expr_text, expr.values))})"
        case Let():
            return f"let {name_text(expr.name)} be {expr_text(expr.first)} in {expr_text(expr.second)}"
        case If():
            return f"if {expr_text(expr.condition)} then {expr_text(expr.then)} else {expr_text(expr.otherwise)}"
        case Tell():
            return f"tell {expr_text(expr.part, ATOM)}"


def function_text(found):
    return f"{name_text(found.name)}({', '.join(map(name_text, found.own_names))}) = {expr_text(found.body)}"
