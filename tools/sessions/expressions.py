"""Expressions, functions and programs as trees: their parts, places in them, and their spelling in bytes.

Names are bytes. A place is a tuple of part numbers, each from 0, from the outside in.
"""

from dataclasses import dataclass, replace

ADD, SUBTRACT, MULTIPLY, DIVIDE, EQUAL, BELOW = range(6)

NUMBER_LIMIT = 2**62
MOST_NAME_BYTES = 32
MOST_VALUES = 16
MOST_OWN_NAMES = 16
MOST_FUNCTIONS = 1024
MOST_PROGRAM_BYTES = 65536

MAIN = b"main"


# Trees are compared by their spelling: the built-in comparison would recurse over 65,000 levels.
def node(cls):
    return dataclass(frozen=True, eq=False)(cls)


@node
class Num:
    value: int


@node
class Var:
    name: bytes


@node
class Bin:
    op: int
    left: object
    right: object


@node
class Call:
    name: bytes
    values: tuple


@node
class Let:
    name: bytes
    first: object
    second: object


@node
class If:
    condition: object
    then: object
    otherwise: object


@node
class Tell:
    part: object


@node
class Function:
    name: bytes
    own_names: tuple
    body: object


# The part of a let in which its name is given.
LET_SECOND = 1


def parts(expr):
    match expr:
        case Num() | Var():
            return ()
        case Bin():
            return (expr.left, expr.right)
        case Call():
            return expr.values
        case Let():
            return (expr.first, expr.second)
        case If():
            return (expr.condition, expr.then, expr.otherwise)
        case Tell():
            return (expr.part,)


def with_parts(expr, new):
    match expr:
        case Num() | Var():
            return expr
        case Bin():
            return replace(expr, left=new[0], right=new[1])
        case Call():
            return replace(expr, values=tuple(new))
        case Let():
            return replace(expr, first=new[0], second=new[1])
        case If():
            return replace(expr, condition=new[0], then=new[1], otherwise=new[2])
        case Tell():
            return replace(expr, part=new[0])


def nodes(expr):
    """The expression and all parts of parts, each before its own parts, left before right."""
    waiting = [expr]
    while waiting:
        found = waiting.pop()
        yield found
        waiting.extend(reversed(parts(found)))


def on_the_way(expr, place):
    """The expressions from the outside to the one at the place, or None if nothing is there."""
    way = [expr]
    for number in place:
        inner = parts(way[-1])
        if number >= len(inner):
            return None
        way.append(inner[number])
    return way


def at(expr, place):
    way = on_the_way(expr, place)
    return way[-1] if way else None


def put_at(expr, place, new):
    outer = on_the_way(expr, place)[:-1]
    for around, number in zip(reversed(outer), reversed(place)):
        inner = list(parts(around))
        inner[number] = new
        new = with_parts(around, inner)
    return new


def called(expr):
    """The names of the functions that are called anywhere in it."""
    return {found.name for found in nodes(expr) if isinstance(found, Call)}


# Spelling: counts and numbers have eight bytes, the highest first; a kind, an operation and a count of values one.


def eight(number):
    return number.to_bytes(8, "big")


def name_spelled(name):
    return eight(len(name)) + name


def head_spelled(expr):
    """What stands before the spellings of the parts."""
    match expr:
        case Num():
            return b"\x00" + eight(expr.value)
        case Var():
            return b"\x01" + name_spelled(expr.name)
        case Bin():
            return bytes([2, expr.op])
        case Call():
            return b"\x03" + name_spelled(expr.name) + bytes([len(expr.values)])
        case Let():
            return b"\x04" + name_spelled(expr.name)
        case If():
            return b"\x05"
        case Tell():
            return b"\x06"


def expr_spelled(expr):
    return b"".join(head_spelled(found) for found in nodes(expr))


def function_spelled(function):
    own_names = b"".join(name_spelled(name) for name in function.own_names)
    head = name_spelled(function.name) + eight(len(function.own_names)) + own_names
    return head + expr_spelled(function.body)


def program_spelled(program):
    return eight(len(program)) + b"".join(function_spelled(function) for function in program)
