"""Random commands on small random programs with few names, so that names shadow, clash and are missing often.

The seed is fixed: the session is the same each time that it is written.
"""

import random

import commands
from commands import (
    Drop, Extract, InlineBind, InlineCall, Load, Names, RenameBind, RenameFunction, RenameParam, Show, TurnIf, Undo,
)
from expressions import (
    ADD, BELOW, DIVIDE, EQUAL, MULTIPLY, SUBTRACT,
    Bin, Call, Function, If, Let, Num, Tell, Var, parts,
)
from model import CORE
from session import Session, describe

SEED = 23
COMMANDS = 240
VARIABLES = (b"a", b"b", b"c")
# With how many own names each mostly has.
USUAL_COUNTS = {b"main": 2, b"f": 1, b"g": 2, b"h": 1}
FUNCTIONS = tuple(USUAL_COUNTS)
NEW_FUNCTIONS = (b"k", b"m", b"h", b"main")

OF_THE_CORE = (RenameBind, RenameBind, RenameBind, RenameParam, RenameParam, Undo, Show)
OF_ALL = (
    RenameBind, RenameParam, RenameFunction, Extract, Extract, InlineBind, InlineBind, InlineCall, InlineCall,
    TurnIf, Drop, Undo, Names,
)


class Author:
    def __init__(self, chance, session):
        self.chance = chance
        self.session = session

    def often(self, percent):
        return self.chance.random() * 100 < percent

    def variable(self):
        return self.chance.choice(VARIABLES)

    def new_variable(self):
        return self.variable() if self.often(85) else b"dd"

    def given_or_not(self, given):
        return self.chance.choice(given) if given and self.often(90) else self.variable()

    def function_or_not(self):
        """A name, mostly of a function that is there."""
        there = [function.name for function in self.session.model.program]
        return self.chance.choice(there) if there and self.often(92) else self.chance.choice(NEW_FUNCTIONS)

    def new_function(self):
        return self.chance.choice(NEW_FUNCTIONS) if self.often(75) else self.function_or_not()

    # Programs: an expression is made for where some names are given, and mostly uses these.

    def expr(self, depth, given):
        if depth == 0 or self.often(10):
            return Var(self.given_or_not(given)) if self.often(75) else Num(self.chance.randrange(4))
        return self.chance.choice((self.bin, self.bin, self.let, self.let, self.let, self.choice, self.call, self.tell))(depth - 1, given)

    def bin(self, depth, given):
        op = self.chance.choice((ADD, SUBTRACT, SUBTRACT, MULTIPLY, DIVIDE, EQUAL, BELOW, BELOW))
        return Bin(op, self.expr(depth, given), self.expr(depth, given))

    def let(self, depth, given):
        name = self.variable()
        return Let(name, self.expr(min(depth, 1), given), self.expr(depth, given + (name,)))

    def choice(self, depth, given):
        return If(self.expr(min(depth, 1), given), self.expr(depth, given), self.expr(depth, given))

    def call(self, depth, given):
        name = self.chance.choice(FUNCTIONS)
        count = self.usual_count(name)
        return Call(name, tuple(self.expr(min(depth, 1), given) for _ in range(count)))

    def tell(self, depth, given):
        return Tell(self.expr(depth, given))

    def usual_count(self, name):
        """How many own names a function has or values its call, so that these are mostly as many."""
        return USUAL_COUNTS[name] if self.often(90) else self.chance.randrange(4)

    def function(self, name):
        own_names = tuple(self.chance.sample(VARIABLES, self.usual_count(name)))
        if self.often(2):
            own_names += (self.variable(),)
        return Function(name, own_names, self.expr(4, own_names))

    def program(self):
        names = self.chance.sample(FUNCTIONS, self.chance.choice((2, 3, 3, 4)))
        if self.often(5):
            names.append(self.chance.choice(FUNCTIONS))
        return tuple(self.function(name) for name in names)

    # Places: mostly of something that the command is for.

    def places(self, expr, place=()):
        found = [(place, expr)]
        for number, inner in enumerate(parts(expr)):
            found += self.places(inner, place + (number,))
        return found

    def place(self, function, cls):
        found = self.places(function.body)
        fitting = [place for place, inner in found if isinstance(inner, cls)]
        if fitting and self.often(90):
            return self.chance.choice(fitting)
        place = self.chance.choice(found)[0]
        return place + (self.chance.randrange(4),) if self.often(25) else place

    # Commands.

    def one_of(self, classes):
        cls = self.chance.choice(classes)
        if cls in (Names, Undo):
            return cls()
        name = self.function_or_not()
        function = self.session.model.find(name) or Function(name, (), Num(0))
        if cls in (Show, Drop):
            return cls(name)
        if cls is RenameFunction:
            return cls(name, self.new_function())
        if cls is RenameParam:
            count = max(len(function.own_names), 1)
            return cls(name, self.chance.randrange(count if self.often(90) else 16), self.new_variable())
        if cls is RenameBind:
            return cls(name, self.place(function, Let), self.new_variable())
        if cls is Extract:
            return cls(name, self.place(function, object), self.new_function())
        return cls(name, self.place(function, {InlineBind: Let, InlineCall: Call, TurnIf: If}[cls]))

    def damaged(self, row):
        row = bytearray(row)
        index = self.chance.randrange(len(row))
        damage = self.chance.randrange(4)
        if damage == 0:
            row[index] ^= 1 << self.chance.randrange(8)
        elif damage == 1:
            del row[index]
        elif damage == 2:
            row.insert(index, self.chance.randrange(256))
        else:
            del row[index:]
        return bytes(row)


def wander(s, author, classes, count):
    """Commands, with a new program and damaged bytes now and then, and often a show of what the command was about."""
    for number in range(count):
        if number % 8 == 0:
            s.command(Load(author.program()), ends=None)
        said = author.one_of(classes)
        if author.often(5):
            s.bytes(f"{describe(said)}, damaged", author.damaged(commands.spelled(said)))
        s.command(said, ends=None)
        if hasattr(said, "function") and author.often(60):
            s.command(Show(said.function), ends=None)


def session():
    s = Session("random.txt", "Random commands on small random programs with few names, with damaged bytes between.")
    author = Author(random.Random(SEED), s)
    assert set(OF_THE_CORE) <= CORE
    s.section("Renaming and going back")
    wander(s, author, OF_THE_CORE, COMMANDS // 2)
    s.section("All commands")
    wander(s, author, OF_ALL, COMMANDS // 2)
    return s
