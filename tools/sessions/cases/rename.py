"""Renaming lets and own names: captures of every kind, and beside each the nearest case that is none."""

import texts
from cases.programs import padded
from session import DONE, Session

LONG = "abcdefghijklmnopqrstuvwxyz012345"


def let_case(s, before, place, new_name, after=None, why=""):
    """Renames a let of main. Without an after it is a capture."""
    s.load(before)
    s.shows(before)
    s.rename_bind("main", place, new_name, DONE if after else 5, why)
    s.shows(after or before)
    s.undo(DONE if after else 9)
    if after:
        s.shows(before)


def own_case(s, before, index, new_name, after=None, why=""):
    s.load(before)
    s.shows(before)
    s.rename_param("main", index, new_name, DONE if after else 5, why)
    s.shows(after or before)
    s.undo(DONE if after else 9)
    if after:
        s.shows(before)


def outer_to_inner(s):
    s.section("An outer let gets the name of an inner one")
    let_case(s, "main() = let a be 1 in let b be 2 in a + b", (), "b", why="a use under the inner let")
    let_case(s, "main() = let a be 1 in let b be 2 in a", (), "b", why="the inner let has no use of its own")
    let_case(
        s, "main() = let a be 1 in a + (let b be 2 in b)", (), "b",
        "main() = let b be 1 in b + (let b be 2 in b)", "no use under it",
    )
    let_case(s, "main() = let a be 1 in let b be 2 in b", (), "b", "main() = let b be 1 in let b be 2 in b", "no use at all")
    let_case(
        s, "main() = let a be 1 in let b be a in b", (), "b",
        "main() = let b be 1 in let b be b in b", "used in the inner let's first part only",
    )
    let_case(s, "main() = let a be 1 in let b be a in a", (), "b", why="used in both parts")
    let_case(
        s, "main() = let a be 1 in let c be 2 in let b be 3 in f(0, if c then tell a else 1)", (), "b",
        why="two lets further in, in an if in a call",
    )
    let_case(
        s, "main() = let a be 1 in if a then (let b be 2 in b) else tell a", (), "b",
        "main() = let b be 1 in if b then (let b be 2 in b) else tell b", "the uses are beside the inner let",
    )
    let_case(
        s, "main() = let a be 1 in let b be 2 in let a be 3 in a + b", (), "b",
        "main() = let b be 1 in let b be 2 in let a be 3 in a + b", "the use under it is another's",
    )
    let_case(
        s, "main() = let a be 1 in let b be 2 in let a be a in a + b", (), "b",
        why="the use is in the first part of a let of the same name",
    )


def inner_to_outer(s):
    s.section("An inner let gets the name of an outer one")
    let_case(s, "main() = let a be 1 in let b be 2 in a + b", (1,), "a", why="a use of the outer let under it")
    let_case(s, "main() = let a be 1 in let b be 2 in a", (1,), "a", why="the inner let isn't used")
    let_case(
        s, "main() = let a be 1 in a + (let b be 2 in b)", (1, 1), "a",
        "main() = let a be 1 in a + (let a be 2 in a)", "no such use under it",
    )
    let_case(
        s, "main() = let a be 1 in let b be a in b", (1,), "a",
        "main() = let a be 1 in let a be a in a", "the outer is used in the inner's first part only",
    )
    let_case(
        s, "main() = let a be 1 in let b be 2 in b + (let a be 3 in a)", (1,), "a",
        "main() = let a be 1 in let a be 2 in a + (let a be 3 in a)", "the use of that name under it is a third let's",
    )
    let_case(
        s, "main() = let a be 1 in let b be 2 in b + (let a be a in a)", (1,), "a",
        why="the third let's first part uses the outer",
    )
    let_case(
        s, "main() = let a be 1 in let b be 2 in let c be 3 in let d be 4 in a", (1, 1), "a",
        why="the use is two lets further in",
    )


def nothing_gives(s):
    s.section("A name that nothing gives would be caught")
    let_case(s, "main() = let a be 1 in a + z", (), "z")
    let_case(s, "main() = let a be 1 in f(2, tell z)", (), "z", why="the let has no use")
    let_case(s, "main() = let a be z in a", (), "z", "main() = let z be z in z", "it is in the let's first part")
    let_case(s, "main() = z + (let a be 1 in a) * z", (1, 0), "z", "main() = z + (let z be 1 in z) * z", "it is outside")
    let_case(
        s, "main() = let a be 1 in a + (let z be 2 in z)", (), "z",
        "main() = let z be 1 in z + (let z be 2 in z)", "it is given further in",
    )
    let_case(s, "main() = let a be 1 in a + (let z be z in z)", (), "z", why="it is given further in, but its first part uses it")
    let_case(s, "main() = let a be 1 in z(a)", (), "z", "main() = let z be 1 in z(z)", "only a function is called so")
    own_case(s, "main(x) = x + z", 0, "z")
    own_case(s, "main(x) = 1 < z", 0, "z", why="the own name has no use")
    own_case(s, "main(x) = x + (let z be 2 in z)", 0, "z", "main(z) = z + (let z be 2 in z)", "it is given further in")
    own_case(s, "main(x) = x + (let z be z in z)", 0, "z", why="it is given further in, but its first part uses it")
    own_case(s, "main(x) = z(x)", 0, "z", "main(z) = z(z)", "only a function is called so")


def same_name(s):
    s.section("Lets of one name in each other")
    twice = "main() = let a be 1 in a + (let a be 2 in a) + a"
    let_case(s, twice, (), "b", "main() = let b be 1 in b + (let a be 2 in a) + b", "the outer")
    let_case(s, twice, (1, 0, 1), "b", "main() = let a be 1 in a + (let b be 2 in b) + a", "the inner")
    thrice = "main() = let a be 1 in let a be a + 1 in let a be a + 2 in a"
    let_case(s, thrice, (), "b", "main() = let b be 1 in let a be b + 1 in let a be a + 2 in a", "the outermost of three")
    let_case(s, thrice, (1,), "b", "main() = let a be 1 in let b be a + 1 in let a be b + 2 in a", "the middle one")
    let_case(s, thrice, (1, 1), "b", "main() = let a be 1 in let a be a + 1 in let b be a + 2 in b", "the innermost")
    beside = "main() = (let a be 1 in a) - (let a be 2 in a)"
    let_case(s, beside, (0,), "b", "main() = (let b be 1 in b) - (let a be 2 in a)", "two beside each other, the first")
    let_case(s, beside, (1,), "b", "main() = (let a be 1 in a) - (let b be 2 in b)", "the second")
    let_case(s, "main(a) = let a be a in let a be a in a", (1,), "b", "main(a) = let a be a in let b be a in b")
    own_case(s, "main(a) = let a be a in let a be a in a", 0, "b", "main(b) = let a be b in let a be a in a")
    own_case(s, "main(a) = a + (let a be 1 in a) + (let b be 2 in a)", 0, "c", "main(c) = c + (let a be 1 in a) + (let b be 2 in c)")


def own_names(s):
    s.section("An own name gets a let's name, a let an own name's, an own name another's")
    own_case(s, "main(x) = let a be 1 in x + a", 0, "a", why="used under the let")
    own_case(s, "main(x) = let a be 1 in x", 0, "a", why="used under the let, which isn't used")
    own_case(s, "main(x) = x + (let a be 1 in a)", 0, "a", "main(a) = a + (let a be 1 in a)", "not used under the let")
    own_case(s, "main(x) = let a be x in a", 0, "a", "main(a) = let a be a in a", "used in the let's first part only")
    let_case(s, "main(x) = let a be 1 in x + a", (), "x", why="the own name is used under it")
    let_case(s, "main(x) = let a be 1 in x", (), "x", why="the own name is used under it, the let isn't")
    let_case(s, "main(x) = x + (let a be 1 in a)", (1,), "x", "main(x) = x + (let x be 1 in x)", "the own name is used beside it")
    let_case(s, "main(x) = let a be x in a", (), "x", "main(x) = let x be x in x", "the own name is used in its first part only")
    own_case(s, "main(x, y) = x - y", 0, "y", why="another own name")
    own_case(s, "main(x, y) = x - y", 1, "x", why="another own name")
    own_case(s, "main(x, y) = 0", 0, "y", why="another own name, though neither is used")
    own_case(s, "main(x, y, z) = x", 2, "x", why="another own name")
    own_case(s, "main(x, y) = x - y", 0, "z", "main(z, y) = z - y")
    own_case(s, "main(x, y) = x - y", 1, "z", "main(x, z) = x - z")
    s.section("Two own names change places by way of a third")
    s.load("main(x, y) = x - y")
    s.rename_param("main", 0, "z")
    s.rename_param("main", 1, "x")
    s.rename_param("main", 0, "y")
    s.shows("main(y, x) = y - x")


def first_parts(s):
    s.section("A let's first part isn't under it")
    let_case(s, "main(x) = let x be x + 1 in x * x", (), "y", "main(x) = let y be x + 1 in y * y")
    own_case(s, "main(x) = let x be x + 1 in x * x", 0, "y", "main(y) = let x be y + 1 in x * x")
    nested = "main() = let a be (let b be 1 in b) in a"
    let_case(s, nested, (0,), "a", "main() = let a be (let a be 1 in a) in a", "the let in the first part gets the outer's name")
    let_case(
        s, nested, (), "b",
        "main() = let b be (let b be 1 in b) in b", "the outer gets the name of the let in its first part",
    )
    let_case(
        s, "main() = let a be (let b be a in b) in a", (), "b",
        "main() = let b be (let b be a in b) in b", "nothing gives the use in the first part",
    )
    let_case(s, "main() = let a be (let b be a in b) in a", (0,), "a", "main() = let a be (let a be a in a) in a")
    let_case(
        s, "main() = let a be (let b be 1 in a + b) in a", (0,), "a",
        why="nothing gives the use under the let in the first part",
    )
    let_case(
        s, "main(a) = let b be (let c be (let d be a in d) in c + a) in b + a", (0, 0), "a",
        "main(a) = let b be (let c be (let a be a in a) in c + a) in b + a",
    )
    let_case(s, "main(a) = let b be (let c be (let d be a in d) in c + a) in b + a", (0,), "a")


def everywhere(s):
    s.section("Lets and uses in every kind of part")
    let_case(s, "main(x) = f(1, let a be x in tell a, 2)", (1,), "b", "main(x) = f(1, let b be x in tell b, 2)", "in a call")
    let_case(
        s, "main(x) = if x then (let a be 1 in a) else let a be 2 in a", (2,), "b",
        "main(x) = if x then (let a be 1 in a) else let b be 2 in b", "in an if",
    )
    let_case(
        s, "main(x) = if (let a be x in a) then 1 else 2", (0,), "x",
        "main(x) = if (let x be x in x) then 1 else 2", "in an if's condition",
    )
    let_case(s, "main(x) = tell tell (let a be x in a + a)", (0, 0), "b", "main(x) = tell tell (let b be x in b + b)", "told")
    kinds = "main(a) = let b be f(a, g(a)) in if a < b then tell (a * b) / a else a - (b = a)"
    own_case(s, kinds, 0, "c", "main(c) = let b be f(c, g(c)) in if c < b then tell (c * b) / c else c - (b = c)")
    let_case(s, kinds, (), "c", "main(a) = let c be f(a, g(a)) in if a < c then tell (a * c) / a else a - (c = a)")
    own_case(s, kinds, 0, "b")
    let_case(s, kinds, (), "a")


def other_names(s):
    s.section("Names that begin alike, of one byte and of 32")
    let_case(s, "main() = let a be 1 in a + ab + aab", (), "aa", "main() = let aa be 1 in aa + ab + aab")
    let_case(s, "main() = let a be 1 in a + ab + aab", (), "aab")
    let_case(s, "main() = let aa be 1 in aa + (let b be 2 in a)", (), "a")
    long_let = f"main() = let {LONG} be 1 in {LONG} + x"
    let_case(s, long_let, (), "a", "main() = let a be 1 in a + x", "from 32 bytes to one")
    let_case(s, "main() = let a be 1 in a + x", (), LONG, long_let, "from one byte to 32")
    last = LONG[:-1] + "6"
    let_case(s, f"main() = let {LONG} be 1 in {LONG} + {last}", (), last, why="names of 32 bytes that differ in the last")
    own_case(s, f"main({LONG}) = {LONG} + {LONG}", 0, last, f"main({last}) = {last} + {last}")
    s.section("Only the one function changes")
    s.load("main(x) = let a be x in f(a)\nf(x) = let a be x in a\na(a) = x")
    s.rename_bind("f", (), "b")
    s.rename_param("f", 0, "y")
    s.rename_param("a", 0, "b")
    s.shows("main(x) = let a be x in f(a)")
    s.shows("f(y) = let b be y in b")
    s.shows("a(b) = x")
    s.names("main", "f", "a")


def to_its_own_name(s):
    s.section("To its own name: done, and it can be gone back from")
    let_case(s, "main(x) = let a be x in a", (), "a", "main(x) = let a be x in a")
    own_case(s, "main(x) = let a be x in a", 0, "x", "main(x) = let a be x in a")
    own_case(s, "main(x, y) = z", 1, "y", "main(x, y) = z")


def not_there(s):
    s.section("No such function, place or own name; no let there; in this order")
    s.load("main(x) = let a be f(x, 1) in if a then tell a else 2 + a")
    s.rename_bind("none", (), "b", 3)
    s.rename_bind("none", (9,), "b", 3)
    s.rename_bind("mai", (), "b", 3)
    s.rename_bind("mainn", (), "b", 3)
    s.rename_bind("main", (2,), "b", 3, "a let has two parts")
    s.rename_bind("main", (15,), "b", 3)
    s.rename_bind("main", (0, 2), "b", 3, "the call has two values")
    s.rename_bind("main", (0, 0, 0), "b", 3, "a name has no parts")
    s.rename_bind("main", (0, 1, 0), "b", 3, "a number has no parts")
    s.rename_bind("main", (1, 3), "b", 3, "an if has three parts")
    s.rename_bind("main", (1, 1, 1), "b", 3, "a tell has one part")
    s.rename_bind("main", (1, 2, 2), "b", 3, "a sum has two parts")
    s.rename_bind("main", (0, 0, 0, 5, 5, 5), "x", 3, "further in than anything")
    s.rename_bind("main", (0,), "x", 6, "a call")
    s.rename_bind("main", (0, 0), "x", 6, "a name")
    s.rename_bind("main", (0, 1), "x", 6, "a number")
    s.rename_bind("main", (1,), "x", 6, "an if")
    s.rename_bind("main", (1, 1), "x", 6, "a tell")
    s.rename_bind("main", (1, 2), "x", 6, "a sum")
    s.rename_bind("main", (1, 2, 1), "x", 6, "a name")
    s.rename_param("none", 0, "y", 3)
    s.rename_param("none", 15, "y", 3)
    s.rename_param("main", 1, "y", 3, "there is one")
    s.rename_param("main", 15, "x", 3)
    s.undo(9)
    s.shows("main(x) = let a be f(x, 1) in if a then tell a else 2 + a")
    s.load("main() = 1")
    s.rename_param("main", 0, "y", 3, "there is none")
    own = ", ".join(f"p{number}" for number in range(16))
    s.load(f"main({own}) = p0 + p15")
    s.rename_param("main", 15, "last")
    s.rename_param("main", 15, "p14", 5)
    s.rename_param("main", 0, "last", 5)
    s.rename_param("main", 0, "first")
    s.show()


def too_large(s):
    s.section("At 65,536 bytes: too large, a capture, both, neither")
    main = "main(x, y) = let a be x in let bb be y in a + bb"
    s.load_large(f"{main}, with a function pad that makes it 65,536 bytes", padded(texts.program(main)))
    s.names("main", "pad")
    s.shows(main)
    s.rename_bind("main", (), "aa", 7, "which would be 65,538 bytes")
    s.rename_bind("main", (1,), LONG, 7)
    s.rename_param("main", 0, "xx", 7)
    s.rename_param("main", 1, LONG, 7)
    s.rename_bind("main", (), "bb", 5, "too large and a capture")
    s.rename_param("main", 0, "bb", 7, "too large and no capture: it is used in the outer let's first part only")
    s.rename_bind("main", (1,), "a", 5, "a capture, and smaller")
    s.rename_param("main", 0, "y", 5, "another own name, of the same size")
    s.shows(main)
    s.undo(9)
    s.rename_bind("main", (), "c", why="of the same size")
    s.shows("main(x, y) = let c be x in let bb be y in c + bb")
    s.undo()
    s.rename_param("main", 0, "a", why="of the same size")
    s.shows("main(a, y) = let a be a in let bb be y in a + bb")
    s.undo()
    s.rename_bind("main", (1,), "b", why="which makes it 65,534 bytes")
    s.rename_bind("main", (), "aaa", 7, "which would be 65,538 bytes")
    s.rename_bind("main", (), "b", 5)
    s.rename_param("main", 1, "bb", why="which makes it 65,536 bytes")
    s.rename_param("main", 0, "bb", 5, "too large and another own name")
    s.rename_bind("main", (1,), "bb", 7, "too large and no capture: the own name is used in its first part only")
    s.shows("main(x, bb) = let a be x in let b be bb in a + b")
    s.undo()
    s.undo()
    s.shows(main)
    s.undo(9)


def deep_undo(s):
    s.section("Nine changes, of which eight are undone")
    s.load("main(x) = let a be x in a")
    for number in range(1, 10):
        s.rename_bind("main", (), f"a{number}")
    s.shows("main(x) = let a9 be x in a9")
    for number in range(8, 0, -1):
        s.undo()
        s.shows(f"main(x) = let a{number} be x in a{number}")
    s.undo(9)
    s.shows("main(x) = let a1 be x in a1")
    s.section("Refused commands between are no changes")
    s.rename_bind("main", (), "b")
    s.rename_bind("main", (), "b1")
    s.rename_bind("main", (0,), "c", 6)
    s.rename_param("main", 1, "c", 3)
    s.undo()
    s.shows("main(x) = let b be x in b")
    s.undo()
    s.undo(9)


def session():
    s = Session("rename.txt", "Renaming lets and own names: captures of every kind, and beside each the nearest case that is none.")
    outer_to_inner(s)
    inner_to_outer(s)
    nothing_gives(s)
    same_name(s)
    own_names(s)
    first_parts(s)
    everywhere(s)
    other_names(s)
    to_its_own_name(s)
    not_there(s)
    too_large(s)
    deep_undo(s)
    return s
