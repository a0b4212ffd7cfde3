"""Writes the sessions and what a machine answers that knows some of the commands.

    python3 tools/sessions/make.py --known NAME --out crates/replay

writes DIR/data/*.txt, DIR/args and DIR/stdout. NAME is none, history, core or all.
"""

import argparse
from collections import Counter
from pathlib import Path

from cases import damaged, extract, functions, history, inline, limits, randomly, rename, worked
from model import KNOWN, run_deep
from session import entries, expected

CASES = (damaged, history, limits, rename, functions, extract, inline, worked, randomly)

# All ends that a command can have once it is known.
OUTCOMES = {
    "Load": {0, 4},
    "Show": {0, 3},
    "Names": {0},
    "RenameBind": {0, 3, 5, 6, 7},
    "RenameParam": {0, 3, 5, 7},
    "RenameFunction": {0, 3, 4, 6, 7},
    "Extract": {0, 3, 4, 5, 7},
    "InlineBind": {0, 3, 5, 6, 7},
    "InlineCall": {0, 3, 5, 6, 7},
    "TurnIf": {0, 3, 6, 7},
    "Drop": {0, 3, 6},
    "Undo": {0, 9},
    "no command": {1},
}


def arguments():
    parser = argparse.ArgumentParser(description="Writes sessions and the answers to them.")
    parser.add_argument("--known", choices=KNOWN, required=True, help="which commands the machine knows")
    parser.add_argument("--out", type=Path, required=True, metavar="DIR", help="where data/, args and stdout are written")
    parser.add_argument("--outcomes", action="store_true", help="say how often each command ends how, if all are known")
    return parser.parse_args()


def write_data(folder, sessions):
    folder.mkdir(parents=True, exist_ok=True)
    for old in folder.glob("*.txt"):
        old.unlink()
    for session in sessions:
        session.write(folder / session.name)


def answers(folder, sessions, known):
    """All lines that are printed, read off the files as they were written."""
    lines = []
    for session in sessions:
        for answer in expected(entries(folder / session.name), known):
            lines += answer
    return lines


def check_outcomes(sessions):
    """Every end of every command occurs."""
    found = sum((session.outcomes for session in sessions), Counter())
    wanted = {(kind, ending) for kind, endings in OUTCOMES.items() for ending in endings}
    assert set(found) == wanted, (wanted - set(found), set(found) - wanted)
    return found


def write_lines(path, lines):
    path.write_text("".join(f"{line}\n" for line in lines))


def say_sizes(out, sessions):
    for session in sessions:
        size = (out / "data" / session.name).stat().st_size
        print(f"{session.name}: {sum(session.outcomes.values()):,} commands, {size:,} bytes")
    print(f"stdout: {(out / 'stdout').stat().st_size:,} bytes")


def make(args):
    sessions = [case.session() for case in CASES]
    found = check_outcomes(sessions)
    write_data(args.out / "data", sessions)
    write_lines(args.out / "args", [session.name for session in sessions])
    write_lines(args.out / "stdout", answers(args.out / "data", sessions, KNOWN[args.known]))
    say_sizes(args.out, sessions)
    if args.outcomes:
        for (kind, ending), count in sorted(found.items()):
            print(f"{kind} {ending}: {count:,}")


if __name__ == "__main__":
    options = arguments()
    run_deep(lambda: make(options))
