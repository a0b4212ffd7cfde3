"""Every way of being no command, each beside the nearest that is one."""

import texts
from commands import (
    Drop, Extract, InlineBind, InlineCall, Load, Names, RenameBind, RenameFunction, RenameParam, Show, TurnIf, Undo, spelled,
)
from expressions import (
    Bin, Call, Function, If, Let, Num, Tell, Var, eight, function_spelled, name_spelled, program_spelled,
)
from session import Session

SMALL = texts.program("main(x) = let a be 1 in a")
RICH = texts.program("main(x) = let a be x - 2 in if a then f(tell a) else 3")

EACH_KIND = {
    "load": Load(SMALL),
    "show": Show(b"main"),
    "names": Names(),
    "rename a let": RenameBind(b"main", (1, 0), b"bb"),
    "rename an own name": RenameParam(b"main", 0, b"bb"),
    "rename a function": RenameFunction(b"f", b"gg"),
    "extract": Extract(b"main", (1, 0), b"gg"),
    "put a let in place": InlineBind(b"main", (1, 0)),
    "put a call in place": InlineCall(b"main", (1, 0)),
    "turn an if": TurnIf(b"main", (1, 0)),
    "drop": Drop(b"none"),
    "undo": Undo(),
}
WITH_PLACE = (4, 7, 8, 9, 10)
KINDS_NAMED = dict(enumerate(EACH_KIND, start=1))

# What is added to a count of eight bytes so that exactly one byte of it changes, and more than that to the highest.
HIGHER = [256**power for power in range(1, 8)] + [2**63, 2**64 - 256]


def lines(s):
    s.section("How a line may look: digits of either case, blanks around it, no bytes")
    s.load("main(x) = let a be 1 in a")
    row = spelled(Show(b"main"))
    for line in (row.hex(), row.hex().upper(), row.hex().title(), f"  {row.hex()}", f"{row.hex()} \t", f"\t {row.hex()}\t "):
        s.say_line(line, row, ends=0)
    s.comment("the command of no bytes")
    s.say_line("-", b"", ends=1)
    s.say_line(" \t- ", b"", ends=1)
    s.lines += ["  # a comment after blanks", " \t "]


def kinds(s):
    s.section("The first byte alone: only 3, names, and 12, undo, are whole commands")
    for kind in range(256):
        if kind in (3, 12):
            s.bytes(f"{kind} is a command", bytes([kind]))
        else:
            s.say(bytes([kind]), ends=1)
    s.section("Kinds that there are not, with what a command has after its kind")
    for kind in (0, 13, 14, 127, 128, 129, 255):
        for words, said in EACH_KIND.items():
            s.bytes(f"kind {kind}, then what {words} has", bytes([kind]) + spelled(said)[1:], ends=1)


def cut_and_extended(s):
    for words, said in EACH_KIND.items():
        row = spelled(said)
        s.section(f"To {words}: cut short after each byte, longer by one and by itself; last the whole")
        for count in range(1, len(row)):
            s.say(row[:count], ends=1)
        for more in (b"\x00", b"\xff", row):
            s.say(row + more, ends=1)
        s.bytes("whole", row)


def counted(s, words, count, make, most):
    """A count just right, and near it: make(count) is the row with that count in front of the same things."""
    s.bytes(f"{words}: {count}, as it is", make(count))
    for other in (count - 1, count + 1, most + 1):
        if other >= 0 and other != count:
            s.bytes(f"{words}: {other} where there are {count}", make(other), ends=1)
    for more in HIGHER:
        s.bytes(f"{words}: {count + more:#x} where there are {count}", make(count + more), ends=1)


def counts(s):
    s.section("Counts that are wrong by one, or in a higher byte")
    counted(s, "bytes of a function's name", 4, lambda n: b"\x02" + eight(n) + b"main", 32)
    counted(s, "functions", 1, lambda n: b"\x01" + eight(n) + function_spelled(SMALL[0]), 1024)
    body = b"\x00" + eight(7)
    own = name_spelled(b"x") + name_spelled(b"y")
    counted(s, "own names", 2, lambda n: b"\x01" + eight(1) + name_spelled(b"f") + eight(n) + own + body, 16)
    counted(s, "bytes of an own name", 1, lambda n: b"\x01" + eight(1) + name_spelled(b"f") + eight(1) + eight(n) + b"x" + body, 32)
    head = b"\x01" + eight(1) + name_spelled(b"f") + eight(0)
    counted(s, "bytes of a name that is used", 2, lambda n: head + b"\x01" + eight(n) + b"xy", 32)
    counted(s, "bytes of a name that is called", 2, lambda n: head + b"\x03" + eight(n) + b"xy" + b"\x00", 32)
    counted(s, "bytes of a let's name", 2, lambda n: head + b"\x04" + eight(n) + b"xy" + body + body, 32)
    counted(s, "bytes of a new name", 2, lambda n: spelled(RenameFunction(b"f", b"g"))[:-9] + eight(n) + b"gg", 32)
    counted(s, "numbers of a place", 3, lambda n: b"\x0a" + name_spelled(b"main") + eight(n) + b"\x01\x00\x01", 4096)
    for values, told in ((0, 1), (1, 0), (2, 1), (1, 2), (2, 3), (2, 255)):
        row = head + b"\x03" + name_spelled(b"g") + bytes([told]) + body * values
        s.bytes(f"values of a call: {told} where there are {values}", row, ends=1)


def load_of(body, own_names=()):
    return b"\x01" + program_spelled((Function(b"f", own_names, body),))


def numbers(s):
    s.section("Numbers are below 2^62")
    s.bytes("2^62 - 1", load_of(Num(2**62 - 1)), ends=0)
    s.show("f")
    for words, value in (("2^62", 2**62), ("2^62 + 1", 2**62 + 1), ("2^63 - 1", 2**63 - 1), ("2^63", 2**63), ("2^64 - 1", 2**64 - 1)):
        s.bytes(words, load_of(Num(value)), ends=1)
        s.bytes(f"{words} further in", load_of(Let(b"a", Num(1), Bin(0, Var(b"a"), Tell(Num(value))))), ends=1)
    s.show("f")


def operations(s):
    s.section("Operations are below 6, kinds of expressions below 7")
    for op in range(6):
        s.bytes(f"operation {op}", load_of(Bin(op, Num(1), Num(2))), ends=0)
    for op in (6, 7, 64, 128, 255):
        s.bytes(f"operation {op}", load_of(Bin(op, Num(1), Num(2))), ends=1)
    parts = [b"", eight(1), name_spelled(b"x"), b"\x00" + load_of(Num(1))[-9:] * 2, load_of(Num(1))[-9:] * 3]
    for kind in (7, 8, 9, 64, 128, 134, 255):
        for rest in parts:
            s.bytes(f"kind of expression {kind}", load_of(Num(0))[:-9] + bytes([kind]) + rest, ends=1)
    s.bytes("kind of expression 7 told", load_of(Tell(Num(0)))[:-9] + b"\x07" + eight(0), ends=1)
    s.bytes("a function without an expression", load_of(Num(0))[:-9], ends=1)


def name_lengths(s):
    s.section("Names have 1 to 32 bytes, wherever they stand")
    for count, ends in ((0, 1), (1, None), (32, None), (33, 1), (255, 1)):
        name = b"n" * count
        rows = {
            "to show": spelled(Show(name)),
            "to drop": spelled(Drop(name)),
            "of a function": b"\x01" + program_spelled((Function(name, (), Num(0)),)),
            "of a function's own": load_of(Num(0), (name,)),
            "of a function's second own": load_of(Num(0), (b"a", name)),
            "that is used": load_of(Var(name)),
            "that is called": load_of(Call(name, (Num(0),))),
            "of a let": load_of(Let(name, Num(0), Var(b"a"))),
            "of the function in which a let is renamed": spelled(RenameBind(name, (), b"a")),
            "for a let": spelled(RenameBind(b"f", (), name)),
            "of the function whose own is renamed": spelled(RenameParam(name, 0, b"a")),
            "for an own name": spelled(RenameParam(b"f", 0, name)),
            "of the function to rename": spelled(RenameFunction(name, b"g")),
            "for a function": spelled(RenameFunction(b"none", name)),
            "of the function to extract from": spelled(Extract(name, (), b"g")),
            "of what is extracted": spelled(Extract(b"none", (), name)),
            "of the function in which a let is put in place": spelled(InlineBind(name, ())),
            "of the function in which a call is put in place": spelled(InlineCall(name, ())),
            "of the function in which an if is turned": spelled(TurnIf(name, ())),
        }
        for words, row in rows.items():
            s.bytes(f"a name of {count} bytes {words}", row, ends)


def name_bytes(s):
    s.section("Names may have any bytes: show, with each byte as a name")
    for byte in range(256):
        s.say(spelled(Show(bytes([byte]))), ends=3 if byte != ord("f") else None)


def values_and_own_names(s):
    s.section("Calls have at most 16 values, functions at most 16 own names, of which the numbers are below 16")
    for count, ends in ((0, 0), (15, 0), (16, 0), (17, 1), (18, 1), (255, 1)):
        s.bytes(f"{count} values", load_of(Call(b"g", (Num(5),) * count)), ends)
        own_names = tuple(bytes([97 + number % 26, 97 + number // 26]) for number in range(count))
        s.bytes(f"{count} own names", load_of(Num(5), own_names), ends)
    s.bytes("17 own names, two of them alike: no command comes before that", load_of(Num(5), (b"a",) * 17), ends=1)
    s.bytes("16 own names, all alike", load_of(Num(5), (b"a",) * 16), ends=4)
    for index, ends in ((0, 3), (1, 3), (15, 3), (16, 1), (17, 1), (128, 1), (255, 1)):
        s.bytes(f"own name {index} renamed, of a function that isn't there", spelled(RenameParam(b"none", index, b"a")), ends)


def place_row(kind, place):
    row = bytes([kind]) + name_spelled(b"none") + eight(len(place)) + bytes(place)
    return row + name_spelled(b"a") if kind in (4, 7) else row


def places(s):
    s.section("Places have at most 4,096 numbers below 16")
    for kind in WITH_PLACE:
        words = KINDS_NAMED[kind]
        for number, ends in ((0, 3), (15, 3), (16, 1), (17, 1), (255, 1)):
            s.bytes(f"{words}, at a place of one number, {number}", place_row(kind, (number,)), ends)
            s.bytes(f"{words}, at a place of 9 numbers, the last {number}", place_row(kind, (0, 1, 2, 3, 4, 5, 6, 7, number)), ends)
        s.bytes(f"{words}, at a place of no numbers", place_row(kind, ()), ends=3)
        s.bytes(f"{words}, at a place of 4,096 numbers", place_row(kind, (1,) * 4096), ends=3)
        s.bytes(f"{words}, at a place of 4,097 numbers", place_row(kind, (1,) * 4097), ends=1)
    s.bytes("turn an if, at a place of 4,096 numbers, the last 16", place_row(10, (1,) * 4095 + (16,)), ends=1)


def sizes(s):
    s.section("More than 1,024 functions or 65,536 bytes: these are in limits.txt. Here: counts with nothing behind")
    for count in (1, 1024, 1025, 2**16, 2**32, 2**32 + 1, 2**62, 2**63, 2**64 - 1):
        s.bytes(f"{count:#x} functions and nothing more", b"\x01" + eight(count), ends=1)
    s.bytes("no function and nothing more", b"\x01" + eight(0), ends=0)
    s.bytes("no function and a byte", b"\x01" + eight(0) + b"\x00", ends=1)
    s.bytes("1, and seven bytes", b"\x01" + eight(0)[:-1], ends=1)


def changed_bytes(s):
    s.section("One byte of a load changed, at each place: by one, and to 255")
    row = spelled(Load(RICH))
    s.bytes("as it is", row, ends=0)
    for index, byte in enumerate(row):
        for other in sorted({byte ^ 1, 255}):
            changed = row[:index] + bytes([other]) + row[index + 1 :]
            s.bytes(f"byte {index} is {other} and not {byte}", changed)


def missing_parts(s):
    s.section("Expressions that lack a part, or have one too many")
    whole = {
        "a sum": Bin(0, Num(1), Num(2)),
        "a let": Let(b"a", Num(1), Num(2)),
        "an if": If(Num(1), Num(2), Num(3)),
        "a tell": Tell(Num(1)),
        "a call": Call(b"g", (Num(1), Num(2))),
    }
    for words, expr in whole.items():
        row = load_of(expr)
        s.bytes(f"{words}, whole", row, ends=0)
        s.bytes(f"{words} without its last part", row[:-9], ends=1)
        s.bytes(f"{words} with a part more", row + row[-9:], ends=1)


def nothing_happened(s):
    s.section("None of what was no command changed anything")
    s.load("main(x) = let a be 1 in a")
    s.rename_bind("main", (), "b")
    for row in (b"", b"\x00", b"\x0d", b"\x0c\x0c", b"\x03\x03", spelled(Load(SMALL))[:-1]):
        s.say(row, ends=1)
    s.shows("main(x) = let b be 1 in b")
    s.undo()
    s.shows("main(x) = let a be 1 in a")
    s.undo(9)


def session():
    s = Session("damaged.txt", "Every way of being no command, each beside the nearest that is one.")
    lines(s)
    kinds(s)
    cut_and_extended(s)
    counts(s)
    numbers(s)
    operations(s)
    name_lengths(s)
    name_bytes(s)
    values_and_own_names(s)
    places(s)
    sizes(s)
    missing_parts(s)
    changed_bytes(s)
    nothing_happened(s)
    return s
