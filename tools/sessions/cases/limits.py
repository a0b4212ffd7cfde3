"""Each limit exactly, and one beyond it; what would be too large; and trees as deep as there can be."""

import texts
from cases.programs import numbered, padded, told
from expressions import Bin, Call, Function, If, Let, Num, Var
from session import Session

LONG = b"abcdefghijklmnopqrstuvwxyz01"
MAIN = (
    "main(x, y) = let a be x - y - 1 in let b be a - a in if f(b, x) then b else if a then f(f(y, y), b) else 7\n"
    "f(a, b) = let c be b in if c then a + b else c"
)


def small_functions(count):
    return tuple(Function(numbered(b"f", number, 4), (), Num(number)) for number in range(count))


def many_functions(s):
    s.section("1,024 functions, and 1,025")
    program = small_functions(1024)
    s.load_large("1,024 functions f0000() = 0 to f1023() = 1023", program)
    s.all_names()
    s.shows("f0000() = 0")
    s.shows("f1023() = 1023")
    s.show("f1024", 3)
    s.rename_function("f0512", "g")
    s.extract("f0000", (), "h", 7, "there would be 1,025 functions")
    s.extract("f0000", (), "f0001", 4)
    s.drop("f0001")
    s.extract("f0000", (), "h", why="there are 1,024 again")
    s.extract("h", (), "i", 7)
    s.shows("f0000() = h()")
    s.shows("h() = 0")
    for _ in range(3):
        s.undo()
    s.undo(9)
    s.load_large("1,025 such functions", small_functions(1025), ends=1)
    s.shows("f1023() = 1023")
    s.show("f1024", 3)
    alike = program[:-1] + program[:1]
    s.load_large("1,024 functions, the last called as the first", alike, ends=4)
    s.shows("f1023() = 1023")


def long_names(s):
    s.section("1,024 functions with names of 32 bytes that differ in the last four, in 65,536 bytes")
    named = tuple(Function(numbered(LONG, number, 4), (), Num(number)) for number in range(1023))
    s.load_large("these", padded(named))
    s.all_names()
    s.show(numbered(LONG, 1022, 4))
    s.show(numbered(LONG, 1023, 4), 3)
    s.undo(9)


def own_names(s):
    s.section("16 own names of 32 bytes")
    names = tuple(numbered(LONG, number, 4) for number in range(16))
    uses = Call(names[0], tuple(Var(name) for name in names))
    program = (Function(b"main", names, uses), Function(names[0], names, Var(names[15])))
    s.load_large("main and another, each with 16 own names of 32 bytes", program)
    s.show("main")
    s.show(names[0])
    s.rename_param("main", 15, names[0], 5)
    s.rename_param("main", 15, numbered(LONG, 16, 4))
    s.show("main")
    s.undo()
    s.undo(9)
    s.section("17 names free in what is extracted, and 16")
    whole = Let(b"a", Num(0), Call(b"g", tuple(Var(name) for name in names[:15]) + (Bin(0, Var(names[15]), Var(b"a")),)))
    s.load_large("main with 16 own names and a let, all used in a call", (Function(b"main", names, whole),))
    s.extract("main", (1,), "h", 7, "17 names are free in it")
    s.extract("main", (1, 15), "h", why="two names are free in it")
    s.show("main")
    s.show("h")
    s.undo()
    s.extract("main", (), "h", why="16 names are free in it")
    s.show("main")
    s.show("h")
    s.undo()
    s.undo(9)


def every_byte(s):
    s.section("Names of every byte value")
    single = tuple(Function(bytes([byte]), (bytes([255 - byte]),), Var(bytes([255 - byte]))) for byte in range(256))
    s.load_large("256 functions, each called by one byte, with another for its own name", single)
    s.all_names()
    for byte in (0, 10, 13, 32, 127, 128, 255):
        s.show(bytes([byte]))
    s.rename_param(b"\x00", 0, b"\x00")
    s.show(b"\x00")
    s.undo()
    rows = [bytes(range(start, start + 32)) for start in range(0, 256, 32)]
    body = Let(rows[6], Call(rows[7], (Var(rows[1]),)), Bin(1, Var(rows[6]), Var(rows[5])))
    s.load_large("a function whose names have 32 bytes each, and every byte in one of them", (Function(rows[0], tuple(rows[1:6]), body),))
    s.all_names()
    s.show(rows[0])
    s.rename_bind(rows[0], (), rows[5], 5)
    s.rename_bind(rows[0], (), rows[1])
    s.show(rows[0])
    s.undo()
    s.undo(9)


def all_kinds(depth):
    """A tree with every kind of expression at every level."""
    if depth == 0:
        return Var(b"x")
    inner = all_kinds(depth - 1)
    return Let(b"a", Bin(depth % 6, inner, Num(depth)), If(Var(b"a"), told(1, inner), Call(b"f", (inner, Var(b"a")))))


def largest(s):
    s.section("Exactly 65,536 bytes, and one more")
    program = texts.program(MAIN) + (Function(b"kinds", (b"x",), all_kinds(4)),)
    s.load_large("main, f and a function of all kinds, with a function pad that makes it 65,536 bytes", padded(program))
    s.names("main", "f", "kinds", "pad")
    for name in ("main", "f", "kinds", "pad"):
        s.show(name)
    s.undo(9)
    s.load_large("it with a tell more", padded(program, 65537), ends=1)
    s.names("main", "f", "kinds", "pad")
    s.undo(9)


def too_large(s):
    s.section("Each command that would make these 65,536 bytes more")
    s.rename_bind("main", (), "aa", 7)
    s.rename_param("f", 0, "aa", 7)
    s.rename_function("f", "ff", 7)
    s.extract("main", (1, 1), "g", 7)
    s.extract("pad", (0, 0, 0), "main", 4, "too large, and it would be called main")
    s.inline_bind("main", (), 7, "x - y - 1 would stand in three places")
    s.inline_bind("f", (), why="the let is gone, and its uses are as long as before")
    s.shows("f(a, b) = if b then a + b else b")
    s.undo()
    s.inline_call("main", (1, 1, 2, 1), 7)
    s.inline_call("main", (1, 1, 2, 1, 0), 7)
    s.turn_if("main", (1, 1), 7)
    s.turn_if("main", (1, 0), 6, "too large, and no if")
    s.undo(9)
    s.rename_function("f", "g", why="of the same size")
    s.drop("pad")
    s.turn_if("main", (1, 1))
    s.names("main", "g", "kinds")
    s.show("main")
    for _ in range(3):
        s.undo()
    s.names("main", "f", "kinds", "pad")
    s.undo(9)


def tells(s):
    s.section("65,000 tells in each other")
    s.load_large("main(x), which is x told 65,000 times", (Function(b"main", (b"x",), told(65000, Var(b"x"))),))
    s.names("main")
    s.show("main")
    s.rename_param("main", 0, "y", why="used at the bottom")
    s.undo()
    s.undo(9)
    s.rename_bind("main", (0,) * 4096, "y", 6)


def at_the_deepest_place(s):
    s.section("A let under 4,096 tells, which is as deep as a place can say, and under one more")
    s.load_large("main(x), 4,096 tells of let a be x in a", (Function(b"main", (b"x",), told(4096, Let(b"a", Var(b"x"), Var(b"a")))),))
    s.rename_bind("main", (0,) * 4096, "b")
    s.show("main")
    s.rename_bind("main", (0,) * 4095, "b", 6)
    s.rename_bind("main", (0,) * 4095 + (1,), "b", 3)
    s.rename_bind("main", (0,) * 4094 + (1, 0), "b", 3)
    s.undo()
    s.undo(9)
    s.load_large("main(x), 4,095 tells of a let", (Function(b"main", (b"x",), told(4095, Let(b"a", Var(b"x"), Var(b"a")))),))
    s.rename_bind("main", (0,) * 4096, "b", 6, "the let's first part")
    s.rename_bind("main", (0,) * 4095, "b")


def nested_lets(count, make):
    body = Var(b"a")
    for number in reversed(range(count)):
        body = make(number, body)
    return (Function(b"main", (b"a", b"b"), body),)


def many_lets(s):
    s.section("500 lets in each other, in their second parts and in their first")
    down = nested_lets(500, lambda number, body: Let(numbered(b"n", number, 3), Var(b"a"), body))
    s.load_large("main(a, b): let n000 be a in let n001 be a in and so on to n499, in a", down)
    s.rename_param("main", 0, "c", why="used in each let's first part, and at the bottom")
    s.rename_param("main", 0, "n499", 5, "used under the last let")
    s.rename_bind("main", (1,) * 250, "c", 5)
    s.rename_bind("main", (1,) * 499, "n000")
    s.rename_bind("main", (1,) * 499, "c", 5)
    s.undo()
    s.undo()
    s.rename_bind("main", (), "b", why="it has no use")
    s.load_large(
        "main(a, b): let a be let a be and so on, 500 lets in each other's first parts, each of which has an a behind",
        nested_lets(500, lambda number, body: Let(b"a", body, Var(b"a"))),
    )
    s.rename_param("main", 0, "c", why="its only use is at the bottom")
    s.rename_bind("main", (0,) * 499, "b")
    s.rename_bind("main", (), "b")
    s.undo()
    s.undo()
    s.undo()
    s.undo(9)
    s.load_large(
        "main(a, b): let a be a in let a be a in and so on, 500 lets", nested_lets(500, lambda number, body: Let(b"a", Var(b"a"), body))
    )
    s.rename_param("main", 0, "b", 5)
    s.rename_param("main", 0, "c")
    s.rename_bind("main", (1,) * 250, "b")
    s.rename_bind("main", (1,) * 499, "b")
    s.undo()


def session():
    s = Session("limits.txt", "Each limit exactly, and one beyond it; what would be too large; and trees as deep as there can be.")
    many_functions(s)
    long_names(s)
    own_names(s)
    every_byte(s)
    largest(s)
    too_large(s)
    tells(s)
    at_the_deepest_place(s)
    many_lets(s)
    return s
