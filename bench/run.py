#!/usr/bin/env python3
"""How long commands take on the largest programs.

    (cd crates/replay && rt run -- data/history.txt >/dev/null) && python3 bench/run.py

Plays sessions of many equal commands and prints a table. A time is that of a command as the player has it: its line is read, the machine
takes all its steps, and the answer is printed. What only lines and printing cost is in the rows of commands that are refused at once.
"""

import subprocess
import sys
import tempfile
import time
from pathlib import Path

ROOT = Path(__file__).resolve().parent.parent
sys.path.insert(0, str(ROOT / "tools" / "sessions"))

from cases.limits import LONG  # noqa: E402
from cases.programs import numbered, padded  # noqa: E402
from commands import Load, Names, Show, Undo, spelled  # noqa: E402
from expressions import MOST_FUNCTIONS, Function, Num  # noqa: E402
from model import run_deep  # noqa: E402

PLAYER = ROOT / "crates" / "replay" / "out" / "replay"
ROUNDS = 3


def played(lines, ending):
    """The seconds that a session takes, the best of some rounds; its last command has to end so."""
    with tempfile.NamedTemporaryFile("w", suffix=".txt") as session:
        session.writelines(f"{line}\n" for line in lines)
        session.flush()
        return min(timed(session.name, ending) for _ in range(ROUNDS))


def timed(session, ending):
    with tempfile.TemporaryFile() as printed:
        start = time.perf_counter()
        subprocess.run([PLAYER, session], check=True, stdout=printed)
        seconds = time.perf_counter() - start
        printed.seek(-len(ending) - 1, 2)
        last = printed.read().decode().strip()
    assert last == ending, (last, ending)
    return seconds


def milliseconds(before, text, ending, count):
    """Of one more command: what `count` more of them take, after what comes before and as many again."""
    return (played([*before, *[text] * (2 * count)], ending) - played([*before, *[text] * count], ending)) / count * 1000


def main():
    many = padded(tuple(Function(numbered(LONG, number, 4), (), Num(number)) for number in range(MOST_FUNCTIONS - 1)))
    deep = padded(())
    load_many, load_deep = (spelled(Load(program)).hex() for program in (many, deep))
    cases = [
        ("load, 1,024 functions in 65,536 bytes", [], load_many, "done", 500),
        ("load, one function in 65,536 bytes", [], load_deep, "done", 500),
        ("the first of these and one byte more", [], load_many + "00", "refused 1", 500),
        ("show, of 65,536 bytes", [load_deep], spelled(Show(deep[0].name)).hex(), "done", 1000),
        ("show, the last of 1,024", [load_many], spelled(Show(many[-2].name)).hex(), "done", 5000),
        ("show, of none", [load_many], spelled(Show(b"none")).hex(), "refused 3", 5000),
        ("names, 1,024 of 32 bytes", [load_many], spelled(Names()).hex(), "done", 1000),
        ("undo", [load_many], spelled(Undo()).hex(), "refused 9", 100000),
    ]
    print("| command | ends | ms |\n|---|---|---|")
    for name, before, text, ending, count in cases:
        print(f"| {name} | {ending} | {milliseconds(before, text, ending, count):.4f} |")


if __name__ == "__main__":
    run_deep(main)
