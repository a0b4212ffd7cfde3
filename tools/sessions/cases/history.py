"""Load, show, names, undo: every outcome of each."""

from expressions import Function, Num
from session import Session

TWO = "main(x) = half(x + 1)\nhalf(n) = n / 2"
ALL_KINDS = (
    "main(x, y) = let a be x - 2 in if y < a then f(tell a, y * 3) else if x = y then 7 / x else 0 + g()\n"
    "f(a, b) = a * 2 + b\n"
    "g() = 4611686018427387903"
)


def empty(s):
    s.section("A machine that was told nothing")
    s.names()
    s.show("main", ends=3)
    s.undo(ends=9)
    s.load("")
    s.names()
    s.undo(ends=9)


def loading(s):
    s.section("A program is loaded, and another in its place; nothing is left to go back to")
    s.load(TWO)
    s.names("main", "half")
    s.shows("main(x) = half(x + 1)")
    s.shows("half(n) = n / 2")
    s.undo(ends=9)
    s.load(ALL_KINDS)
    s.names("main", "f", "g")
    for name in ("main", "f", "g", "main"):
        s.show(name)
    s.show("half", ends=3)
    s.undo(ends=9)
    s.load(ALL_KINDS, why="the same again")
    s.names("main", "f", "g")
    s.load("")
    s.names()
    s.show("main", ends=3)


def order(s):
    s.section("Names come in the program's order, and a function may be called what it likes")
    s.load("c() = 1\na() = 2\nb() = 3")
    s.names("c", "a", "b")
    s.load("b() = 3\nc() = 1\na() = 2")
    s.names("b", "c", "a")
    s.shows("c() = 1")
    s.load("x(x) = x(x)", why="one name for all")
    s.names("x")
    s.shows("x(x) = x(x)")
    s.load("ab() = 1\na() = 2\nabc() = 3", why="names that begin alike")
    s.names("ab", "a", "abc")
    s.shows("a() = 2")
    s.show("abcd", ends=3)
    s.show("b", ends=3)


def wrong_but_loaded(s):
    s.section("What would go wrong when it runs is loaded all the same")
    s.load("main(x) = nowhere(x) + nothing + 1 / 0 + f(1)\nf(a, b) = c")
    s.shows("main(x) = nowhere(x) + nothing + 1 / 0 + f(1)")
    s.shows("f(a, b) = c")
    s.load("other() = 1", why="no main")
    s.show("main", ends=3)


def refused_loads(s):
    s.section("A load that is refused leaves everything, what can be gone back to as well")
    s.load("main(x) = x")
    s.rename_param("main", 0, "y")
    s.rename_param("main", 0, "z")
    s.load("f() = 1\nf() = 2", ends=4, why="two functions of one name")
    s.load("f() = 1\ng() = 2\nh() = 3\nf() = 1", ends=4, why="the first and the last of one name")
    s.load("f() = 1\ng() = 2\ng() = 2", ends=4, why="the last two of one name")
    s.load("main(a, a) = 1", ends=4, why="two own names alike")
    s.load("main(a, b, c, a) = 1", ends=4, why="the first and the last own name alike")
    s.load("main(a) = 1\nf(b) = 1\ng(c, d, d) = 1", ends=4, why="two own names of the last function alike")
    s.load("main(a, a) = 1\nmain() = 2", ends=4, why="both")
    s.shows("main(z) = z")
    s.bytes("undo with a byte too many", b"\x0c\x00", ends=1)
    s.undo()
    s.shows("main(y) = y")
    s.load("f(f, f) = f", ends=4)
    s.undo()
    s.shows("main(x) = x")
    s.undo(ends=9)
    s.shows("main(x) = x")


def near_misses(s):
    s.section("Names that only look alike are different")
    s.load("a() = 1\naa() = 2\naaa() = 3\nA() = 4")
    s.names("a", "aa", "aaa", "A")
    s.load("main(a, aa, b, ab) = a")
    s.shows("main(a, aa, b, ab) = a")
    s.load("main(main, f) = main\nf(main, f) = f", why="own names may be those of functions and of other functions' own")
    s.names("main", "f")
    near = (Function(b"f\x00", (), Num(1)), Function(b"f", (), Num(2)), Function(b"\x00f", (), Num(3)))
    s.load_large("three functions whose names differ by a byte of 0", near)
    s.all_names()
    s.load_large("the same twice", near + near[1:2], ends=4)
    s.all_names()


def going_back(s):
    s.section("Eight changes can be undone; loading forgets them; showing doesn't")
    s.load("main(a) = a")
    for name in "bcdefghi":
        s.rename_param("main", 0, name)
    s.names("main")
    s.shows("main(i) = i")
    for name in "hgfedcba":
        s.undo()
        s.shows(f"main({name}) = {name}")
    s.undo(ends=9)
    s.undo(ends=9)
    s.shows("main(a) = a")
    s.rename_param("main", 0, "b")
    s.load("main(a) = a + a")
    s.undo(ends=9)
    s.shows("main(a) = a + a")


def branching(s):
    s.section("After going back, a change goes on from there")
    s.load("main(a) = a")
    s.rename_param("main", 0, "b")
    s.rename_param("main", 0, "c")
    s.undo()
    s.rename_param("main", 0, "d")
    s.undo()
    s.shows("main(b) = b")
    s.undo()
    s.shows("main(a) = a")
    s.undo(ends=9)


def session():
    s = Session("history.txt", "Load, show, names, undo: every outcome of each.")
    empty(s)
    loading(s)
    order(s)
    wrong_but_loaded(s)
    refused_loads(s)
    near_misses(s)
    going_back(s)
    branching(s)
    return s
