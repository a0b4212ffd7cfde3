"""Putting lets and calls in place, and turning ifs: every outcome, and the nearest cases that end otherwise."""

from session import DONE, Session


def let_case(s, before, place, after=None, why=""):
    """Puts a let of main in place. Without an after it is refused with 5."""
    s.load(before)
    s.inline_bind("main", place, DONE if after else 5, why)
    s.shows(after or before.split("\n")[0])
    s.undo(DONE if after else 9)


def call_case(s, before, place, after=None, why=""):
    s.load(before)
    s.inline_call("main", place, DONE if after else 5, why)
    s.shows(after or before.split("\n")[0])
    s.undo(DONE if after else 9)


def quiet(s):
    s.section("A let goes if what it gives is quiet, and its uses are that then")
    let_case(s, "main() = let a be 7 in a + a", (), "main() = 7 + 7", "a number")
    let_case(s, "main(x) = let a be x in a * a", (), "main(x) = x * x", "a name that is given")
    let_case(s, "main() = let a be x in a", (), why="a name that isn't given")
    let_case(s, "main() = let a be x in 1", (), why="a name that isn't given, and no use")
    let_case(s, "main() = let x be x in x", (), why="a let doesn't give its name in its first part")
    let_case(s, "main(x) = let x be x in x + x", (), "main(x) = x + x", "the own name of the same name")
    let_case(s, "main(x) = let a be x - 1 in a", (), "main(x) = x - 1", "a difference")
    let_case(s, "main(x) = let a be x = 1 in a", (), "main(x) = x = 1", "a comparison")
    let_case(s, "main(x) = let a be x < 1 in a", (), "main(x) = x < 1", "a comparison")
    let_case(s, "main(x) = let a be if x then 1 else x in tell a", (), "main(x) = tell (if x then 1 else x)", "an if")
    let_case(
        s, "main(x) = let a be if x < 2 then x - 1 else (if x = 3 then 4 else x) in a", (),
        "main(x) = if x < 2 then x - 1 else if x = 3 then 4 else x",
    )
    for why, first in (
        ("a sum may be too large", "x + 1"), ("a product may be too large", "x * 1"), ("a quotient may be by 0", "x / 2"),
        ("a tell tells", "tell x"), ("a call may do anything", "f(x)"), ("a call of no values, too", "f()"),
        ("a let isn't quiet", "let b be 1 in b"), ("a sum further in", "1 - (2 - (x + 1))"),
        ("a name that isn't given, in an if", "if x then 1 else y"), ("a tell in a comparison", "tell x < 1"),
        ("a quotient in an if's condition", "if x / 1 then 1 else 2"),
    ):
        let_case(s, f"main(x) = let a be {first} in 5", (), why=why)
    let_case(s, "main(x) = let a be x in 5", (), "main(x) = 5", "no use: what it gives is gone")
    let_case(s, "main(x) = let b be x in let a be b in a", (1,), "main(x) = let b be x in b", "a let around gives it")
    let_case(s, "main(x) = (let b be x in b) + (let a be b in a)", (1,), why="a let beside it doesn't")


def caught(s):
    s.section("Not if a let further in would catch a name of what it gives")
    let_case(s, "main(x) = let a be x in let x be 1 in a", (), why="a use under a let of x")
    let_case(s, "main(x) = let a be x in let x be 1 in x", (), "main(x) = let x be 1 in x", "no use under it")
    let_case(s, "main(x) = let a be x in let x be a in x", (), "main(x) = let x be x in x", "a use in its first part only")
    let_case(s, "main(x) = let a be x in let x be a in a - x", (), why="a use in both")
    let_case(
        s, "main(x) = let a be x in let x be 1 in let a be 2 in a", (),
        "main(x) = let x be 1 in let a be 2 in a", "the use under it is another's",
    )
    let_case(
        s, "main(x) = let a be x in let x be 1 in let a be a in a", (),
        why="the use is in the first part of a let of the same name",
    )
    let_case(s, "main(x, y) = let a be x - y in a + (let b be 1 in let y be 2 in tell a)", (), why="the second name of a difference")
    let_case(
        s, "main(x, y) = let a be x - y in a + (let b be 1 in let z be 2 in tell a)", (),
        "main(x, y) = x - y + (let b be 1 in let z be 2 in tell (x - y))",
    )
    let_case(s, "main(x) = let a be 3 in let x be 1 in a + x", (), "main(x) = let x be 1 in 3 + x", "a number has no name")
    let_case(s, "main(x) = let x be x in let x be x in x", (), "main(x) = let x be x in x", "one name for all, the outer")
    let_case(s, "main(x) = let x be x in let x be x in x", (1,), "main(x) = let x be x in x", "the inner")
    let_case(s, "main(x) = let a be x in let a be a - 1 in a", (), "main(x) = let a be x - 1 in a", "a let of the same name stays")


def let_not_there(s):
    s.section("No such function or place, no let there")
    s.load("main(x) = let a be f(x, 1) in if a then tell a else 2 + a")
    s.inline_bind("none", (), 3)
    s.inline_bind("main", (2,), 3)
    s.inline_bind("main", (0, 0, 0), 3)
    for place in ((0,), (0, 0), (0, 1), (1,), (1, 1), (1, 2)):
        s.inline_bind("main", place, 6)
    s.inline_bind("main", (), 5, "a call isn't quiet")
    s.undo(9)


def calls(s):
    s.section("In place of a call the function's expression, under a let for each of its names")
    f = "\nf(a, b) = a - b"
    call_case(s, f"main(x, y) = 1 + f(x, tell y){f}", (1,), "main(x, y) = 1 + (let a be x in let b be tell y in a - b)")
    call_case(s, "main() = f()\nf() = 5", (), "main() = 5", "no values")
    call_case(s, "main() = tell f(g())\nf(a) = 5", (0,), "main() = tell (let a be g() in 5)", "the value isn't used")
    call_case(s, f"main(a, b) = f(a, b){f}", (), "main(a, b) = let a be a in let b be b in a - b", "each by its own name")
    call_case(s, f"main(a, b) = f(b, 1){f}", (), "main(a, b) = let a be b in let b be 1 in a - b", "a later name in an earlier value")
    call_case(s, f"main(a, b) = f(b, a){f}", (), why="an earlier name in a later value")
    call_case(
        s, f"main(a, b) = f(1, let a be 2 in a){f}", (),
        "main(a, b) = let a be 1 in let b be (let a be 2 in a) in a - b", "it isn't free there",
    )
    call_case(s, f"main(a, b) = f(1, let a be a in a){f}", (), why="it is free in the let's first part")
    call_case(s, "main(a) = f(1, 2, g(b, tell a))\nf(a, b, c) = 1", (), why="the first name in the third value")
    call_case(s, f"main(x) = f(x, a){f}", (), why="a name that nothing gives would be caught")
    call_case(
        s, f"main(x) = f(a, x){f}", (),
        "main(x) = let a be a in let b be x in a - b", "a name that nothing gives, in the value for it",
    )
    call_case(
        s, "main(x) = if x then main(x - 1) else 0", (1,),
        "main(x) = if x then (let x be x - 1 in if x then main(x - 1) else 0) else 0", "main itself",
    )
    s.section("Its function is there, has as many names, and only these are free in it")
    call_case(s, "main() = g()\nf() = 1", (), why="not there")
    call_case(s, f"main() = f(1){f}", (), why="too few values")
    call_case(s, f"main() = f(1, 2, 3){f}", (), why="too many values")
    call_case(s, "main(c) = f(1)\nf(a) = a + c", (), why="another name is free in it, which main gives")
    call_case(s, "main(c) = f(1)\nf(a) = let c be a in a + c", (), "main(c) = let a be 1 in let c be a in a + c", "which a let gives")
    call_case(s, "main(c) = f(1)\nf(a) = let c be c in a + c", (), why="free in the let's first part")
    s.section("No such function or place, no call there")
    s.load("main(x) = let a be f(x, 1) in if a then tell a else 2 + a\nf(b) = b")
    s.inline_call("none", (), 3)
    s.inline_call("main", (0, 2), 3)
    s.inline_call("main", (3,), 3)
    for place in ((), (0, 0), (0, 1), (1,), (1, 1), (1, 2)):
        s.inline_call("main", place, 6)
    s.inline_call("main", (0,), 5)
    s.undo(9)


def turning(s):
    s.section("An if turned, and turned again")
    s.load("main(x) = if x < 1 then f(x) else tell (if x then 2 else 3)")
    s.turn_if("main", ())
    s.shows("main(x) = if (x < 1) = 0 then tell (if x then 2 else 3) else f(x)")
    s.turn_if("main", ())
    s.shows("main(x) = if ((x < 1) = 0) = 0 then f(x) else tell (if x then 2 else 3)")
    s.turn_if("main", (2, 0))
    s.shows("main(x) = if ((x < 1) = 0) = 0 then f(x) else tell (if x = 0 then 3 else 2)")
    s.undo()
    s.undo()
    s.undo()
    s.turn_if("none", (), 3)
    s.turn_if("main", (3,), 3)
    s.turn_if("main", (0, 0, 0), 3)
    for place in ((0,), (0, 0), (0, 1), (1,), (2,)):
        s.turn_if("main", place, 6)
    s.load("main() = let a be if b then c else d in a")
    s.turn_if("main", (), 6)
    s.turn_if("main", (0,), why="names that nothing gives don't matter")
    s.shows("main() = let a be if b = 0 then d else c in a")


def session():
    s = Session("inline.txt", "Putting lets and calls in place, and turning ifs: every outcome, and the nearest cases that end otherwise.")
    quiet(s)
    caught(s)
    let_not_there(s)
    calls(s)
    turning(s)
    return s
