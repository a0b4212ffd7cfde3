"""One formula through all kinds of changes, shown after each."""

from session import Session

PROGRAM = "main(x, y) = let a be x - 2 in if y < a then twice(tell a, y) else x\ntwice(a, b) = a * 2 + b"
CALL = (1, 1)


def shown(s, *functions):
    s.names(*[text.split("(")[0] for text in functions])
    for text in functions:
        s.shows(text)


def session():
    s = Session("worked.txt", "One formula through all kinds of changes, shown after each.")
    twice = "twice(a, b) = a * 2 + b"
    main = "main(x, y) = let a be x - 2 in if y < a then twice(tell a, y) else x"
    s.load(PROGRAM)
    shown(s, main, twice)

    s.section("Renaming the let and an own name")
    s.rename_bind("main", (), "x", 5, "x is used under it")
    shown(s, main, twice)
    s.rename_bind("main", (), "d")
    main = "main(x, y) = let d be x - 2 in if y < d then twice(tell d, y) else x"
    shown(s, main, twice)
    s.rename_param("twice", 0, "b", 5, "it has that name")
    shown(s, main, twice)

    s.section("The let in place, and back")
    s.inline_bind("main", ())
    shown(s, "main(x, y) = if y < x - 2 then twice(tell (x - 2), y) else x", twice)
    s.undo()
    shown(s, main, twice)

    s.section("The call of twice as a function, and that in place again")
    s.extract("main", CALL, "far")
    main = "main(x, y) = let d be x - 2 in if y < d then far(d, y) else x"
    shown(s, main, twice, "far(d, y) = twice(tell d, y)")
    s.inline_call("main", CALL)
    inlined = "main(x, y) = let d be x - 2 in if y < d then (let d be d in let y be y in twice(tell d, y)) else x"
    shown(s, inlined, twice, "far(d, y) = twice(tell d, y)")
    s.undo()
    shown(s, main, twice, "far(d, y) = twice(tell d, y)")
    s.inline_call("far", ())
    far = "far(d, y) = let a be tell d in let b be y in a * 2 + b"
    shown(s, main, twice, far)

    s.section("twice by another name, and dropped")
    s.rename_function("twice", "far", 4)
    shown(s, main, twice, far)
    s.rename_function("twice", "dup")
    shown(s, main, "dup(a, b) = a * 2 + b", far)
    s.drop("dup")
    shown(s, main, far)

    s.section("The if turned")
    s.turn_if("main", (1,))
    main = "main(x, y) = let d be x - 2 in if (y < d) = 0 then x else far(d, y)"
    shown(s, main, far)

    s.section("What is refused")
    s.drop("far", 6, "main calls it")
    s.extract("main", (0,), "main", 4)
    s.extract("far", (), "main", 4)
    shown(s, main, far)

    s.section("Back to the beginning")
    for _ in range(6):
        s.undo()
    shown(s, "main(x, y) = let a be x - 2 in if y < a then twice(tell a, y) else x", twice)
    s.undo(9)
    return s
