"""Programs that sessions need and that are too large to be written out."""

from expressions import MOST_PROGRAM_BYTES, Function, Num, Tell, program_spelled


def told(times, expr):
    for _ in range(times):
        expr = Tell(expr)
    return expr


def padded(program, total=MOST_PROGRAM_BYTES):
    """The program with a function "pad" behind that brings it to so many bytes: a tell has one byte."""
    short = tuple(program) + (Function(b"pad", (), Num(0)),)
    missing = total - len(program_spelled(short))
    assert missing >= 0
    return tuple(program) + (Function(b"pad", (), told(missing, Num(0))),)


def numbered(prefix, number, digits):
    """A name that ends in a number of so many digits."""
    return prefix + str(number).zfill(digits).encode()
