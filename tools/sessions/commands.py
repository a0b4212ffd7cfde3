"""The twelve commands: their spelling, and the strict reading of bytes.

Exactly those bytes are read that spell a command which keeps all limits.
"""

from dataclasses import dataclass, fields

from expressions import (
    MOST_FUNCTIONS, MOST_NAME_BYTES, MOST_OWN_NAMES, MOST_PROGRAM_BYTES, MOST_VALUES, NUMBER_LIMIT,
    Bin, Call, Function, If, Let, Num, Tell, Var, eight, name_spelled, program_spelled,
)

MOST_PLACE_NUMBERS = 4096
PLACE_NUMBER_LIMIT = 16
OWN_NAME_INDEX_LIMIT = 16


def command(cls):
    return dataclass(frozen=True)(cls)


# The fields of a command stand in the order in which they are spelled, after its kind.


@command
class Load:
    program: tuple


@command
class Show:
    function: bytes


@command
class Names:
    pass


@command
class RenameBind:
    function: bytes
    place: tuple
    new_name: bytes


@command
class RenameParam:
    function: bytes
    index: int
    new_name: bytes


@command
class RenameFunction:
    function: bytes
    new_name: bytes


@command
class Extract:
    function: bytes
    place: tuple
    new_name: bytes


@command
class InlineBind:
    function: bytes
    place: tuple


@command
class InlineCall:
    function: bytes
    place: tuple


@command
class TurnIf:
    function: bytes
    place: tuple


@command
class Drop:
    function: bytes


@command
class Undo:
    pass


KINDS = {
    1: Load, 2: Show, 3: Names, 4: RenameBind, 5: RenameParam, 6: RenameFunction,
    7: Extract, 8: InlineBind, 9: InlineCall, 10: TurnIf, 11: Drop, 12: Undo,
}
KIND_OF = {cls: kind for kind, cls in KINDS.items()}


def place_spelled(place):
    return eight(len(place)) + bytes(place)


SPELLING = {
    "program": program_spelled,
    "function": name_spelled,
    "new_name": name_spelled,
    "place": place_spelled,
    "index": lambda index: bytes([index]),
}


def spelled(said):
    row = bytes([KIND_OF[type(said)]])
    for field in fields(said):
        row += SPELLING[field.name](getattr(said, field.name))
    return row


class Damaged(Exception):
    """The bytes spell no command."""


def keep(condition):
    if not condition:
        raise Damaged


class Reader:
    """Reads on from where it is; a command's fields by methods of the same names."""

    EXPRESSION_KINDS = ("num", "var", "bin", "call", "let", "choice", "tells")

    def __init__(self, row):
        self.row = row
        self.at = 0

    def bytes(self, count):
        keep(count <= len(self.row) - self.at)
        self.at += count
        return self.row[self.at - count : self.at]

    def byte_below(self, limit):
        byte = self.bytes(1)[0]
        keep(byte < limit)
        return byte

    def number(self):
        return int.from_bytes(self.bytes(8), "big")

    def count(self, most):
        count = self.number()
        keep(count <= most)
        return count

    def name(self):
        count = self.count(MOST_NAME_BYTES)
        keep(count >= 1)
        return self.bytes(count)

    def function(self):
        return self.name()

    def new_name(self):
        return self.name()

    def index(self):
        return self.byte_below(OWN_NAME_INDEX_LIMIT)

    def place(self):
        count = self.count(MOST_PLACE_NUMBERS)
        return tuple(self.byte_below(PLACE_NUMBER_LIMIT) for _ in range(count))

    def num(self):
        value = self.number()
        keep(value < NUMBER_LIMIT)
        return Num(value)

    def bin(self):
        op = self.byte_below(6)
        left = self.expr()
        return Bin(op, left, self.expr())

    def call(self):
        name = self.name()
        count = self.byte_below(MOST_VALUES + 1)
        return Call(name, self.exprs(count))

    def let(self):
        name = self.name()
        first = self.expr()
        return Let(name, first, self.expr())

    def choice(self):
        condition = self.expr()
        then = self.expr()
        return If(condition, then, self.expr())

    def tells(self):
        return Tell(self.expr())

    def var(self):
        return Var(self.name())

    def expr(self):
        kind = self.byte_below(len(self.EXPRESSION_KINDS))
        return getattr(self, self.EXPRESSION_KINDS[kind])()

    def exprs(self, count):
        found = []
        for _ in range(count):
            found.append(self.expr())
        return tuple(found)

    def defined(self):
        name = self.name()
        count = self.count(MOST_OWN_NAMES)
        own_names = tuple(self.name() for _ in range(count))
        return Function(name, own_names, self.expr())

    def program(self):
        start = self.at
        count = self.count(MOST_FUNCTIONS)
        functions = []
        for _ in range(count):
            functions.append(self.defined())
        keep(self.at - start <= MOST_PROGRAM_BYTES)
        return tuple(functions)

    def command(self):
        cls = KINDS.get(self.bytes(1)[0])
        keep(cls)
        said = cls(*[getattr(self, field.name)() for field in fields(cls)])
        keep(self.at == len(self.row))
        return said


def read(row):
    """The command that the bytes spell, or None."""
    try:
        return Reader(row).command()
    except Damaged:
        return None
