"""Extracting what is at a place as a function: every outcome, and the nearest cases that end otherwise."""

from session import DONE, Session


def case(s, before, place, after, made, why=""):
    """Extracts from main as g, shows both, and goes back."""
    s.load(before)
    s.extract("main", place, "g", why=why)
    s.shows(after)
    s.shows(made)
    s.undo()
    s.shows(before)
    s.show("g", 3)


def refused(s, before, place, ends, why=""):
    s.load(before)
    s.extract("main", place, "g", ends, why)
    s.shows(before)
    s.undo(9)


def own_names(s):
    s.section("Its own names are the names that are free in it, in the order in which they come first")
    case(s, "main(a, b, c) = 1 + c * (b - c)", (1,), "main(a, b, c) = 1 + g(c, b)", "g(c, b) = c * (b - c)")
    case(s, "main(a, b) = 1 + 2", (1,), "main(a, b) = 1 + g()", "g() = 2", "none")
    case(s, "main(a, b) = b - a", (), "main(a, b) = g(b, a)", "g(b, a) = b - a", "all of main")
    case(s, "main(a, b) = tell b", (0,), "main(a, b) = tell g(b)", "g(b) = b", "a name")
    case(
        s, "main(a, b, c) = if c then b else f(a, c, b)", (), "main(a, b, c) = g(c, b, a)", "g(c, b, a) = if c then b else f(a, c, b)",
    )
    case(
        s, "main(a, b) = let c be b in f(let a be c in a + b, a)", (1,),
        "main(a, b) = let c be b in g(c, b, a)", "g(c, b, a) = f(let a be c in a + b, a)",
        "a name that a let inside gives, and free beside it",
    )
    case(
        s, "main(a) = tell (let a be a in let b be a in b)", (0,), "main(a) = tell g(a)", "g(a) = let a be a in let b be a in b",
        "free in a let's first part only",
    )
    case(s, "main(a) = tell (let a be 1 in a)", (0,), "main(a) = tell g()", "g() = let a be 1 in a", "not free at all")
    case(
        s, "main(x) = let a be x in let a be a in a + a", (1, 1),
        "main(x) = let a be x in let a be a in g(a)", "g(a) = a + a", "given twice",
    )
    case(s, "main(x) = f(h(x), main(x))", (1,), "main(x) = f(h(x), g(x))", "g(x) = main(x)", "a call of main")


def not_given(s):
    s.section("A free name has to be given there")
    refused(s, "main(a) = a + b", (), 5)
    refused(s, "main(a) = a + b", (1,), 5)
    case(s, "main(a) = a + b", (0,), "main(a) = g(a) + b", "g(a) = a", "beside it")
    refused(s, "main() = let a be a in a", (0,), 5, "a let doesn't give its name in its first part")
    case(s, "main() = let a be a in a", (1,), "main() = let a be a in g(a)", "g(a) = a", "but in its second")
    refused(s, "main() = (let a be 1 in a) + tell a", (1, 0), 5, "a let beside it")
    refused(s, "main() = let b be (let a be 1 in a) in a", (1,), 5, "a let in the first part")


def names_taken(s):
    s.section("No such function or place; the name is taken; a name isn't given: in this order")
    program = "main(a) = b + f(a, k(1))\nf(c, d) = m(c)"
    s.load(program)
    s.extract("none", (), "g", 3)
    s.extract("main", (2,), "main", 3)
    s.extract("main", (0, 0), "g", 3)
    for name in ("main", "f", "k", "m"):
        s.extract("main", (), name, 4, "and b isn't given")
        s.extract("main", (1,), name, 4)
    s.extract("f", (), "k", 4, "main calls it")
    s.extract("main", (1, 1), "k", 4, "it is called in what is extracted itself")
    s.extract("main", (), "a", 5, "an own name's name may be a function's")
    s.extract("main", (1, 0), "a", why="likewise")
    s.shows("main(a) = b + f(a(a), k(1))")
    s.shows("a(a) = a")
    s.names("main", "f", "a")
    s.extract("a", (), "c")
    s.names("main", "f", "a", "c")
    s.shows("a(a) = c(a)")
    s.undo()
    s.undo()
    s.undo(9)


def and_back(s):
    s.section("Extracted, the call put in place, and the lets that it leaves: as it was")
    before = "main(x, y) = let a be x - y in if a < y then tell a else a * y"
    s.load(before)
    s.extract("main", (1,), "g")
    s.shows("main(x, y) = let a be x - y in g(a, y)")
    s.shows("g(a, y) = if a < y then tell a else a * y")
    s.inline_call("main", (1,))
    s.shows("main(x, y) = let a be x - y in let a be a in let y be y in if a < y then tell a else a * y")
    s.inline_bind("main", (1, 1))
    s.shows("main(x, y) = let a be x - y in let a be a in if a < y then tell a else a * y")
    s.inline_bind("main", (1,))
    s.shows(before)
    s.drop("g")
    s.names("main")
    for _ in range(5):
        s.undo(DONE)
    s.undo(9)


def session():
    s = Session("extract.txt", "Extracting what is at a place as a function: every outcome, and the nearest cases that end otherwise.")
    own_names(s)
    not_given(s)
    names_taken(s)
    and_back(s)
    return s
