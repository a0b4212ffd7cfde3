"""Compares what a machine printed for a folder of sessions with what the model says, and tells the first difference.

    python3 tools/sessions/check.py DIR --known NAME --actual FILE

DIR has data/*.txt and args, the files in the order in which they were played; without --actual it is DIR/stdout.
"""

import argparse
import sys
from pathlib import Path

from model import KNOWN, run_deep
from session import entries, expected

WIDTH = 200


def arguments():
    parser = argparse.ArgumentParser(description="Compares what was printed for sessions with the model.")
    parser.add_argument("folder", type=Path, metavar="DIR")
    parser.add_argument("--known", choices=KNOWN, default="all", help="which commands the machine knows")
    parser.add_argument("--actual", type=Path, help="what was printed; - is standard input")
    return parser.parse_args()


def actual_lines(args):
    if args.actual == Path("-"):
        return sys.stdin.read().splitlines()
    return (args.actual or args.folder / "stdout").read_text().splitlines()


def answers(folder, known):
    """Each command with its file and the lines that it is answered with."""
    for name in (folder / "args").read_text().split():
        found = entries(folder / "data" / name)
        for entry, lines in zip(found, expected(found, known)):
            yield name, entry, lines


def cut(text):
    return text if len(text) <= WIDTH else f"{text[:WIDTH]}... ({len(text):,} characters)"


def tell_difference(name, entry, wanted, got):
    print(f"{name}:{entry.line}: {cut(entry.comment)}")
    print(f"  command:  {cut(entry.row.hex() or '-')}")
    for index in range(max(len(wanted), len(got))):
        pair = [lines[index] if index < len(lines) else "nothing" for lines in (wanted, got)]
        if pair[0] != pair[1]:
            print(f"  line {index + 1} of its answer")
            print(f"  expected: {cut(pair[0])}")
            print(f"  printed:  {cut(pair[1])}")
            return


def answer_at(lines, at):
    """The lines from there to the end of one answer."""
    end = at
    while end < len(lines) and lines[end].startswith("shows "):
        end += 1
    return lines[at : end + 1]


def check(args):
    printed = actual_lines(args)
    at = 0
    count = 0
    for name, entry, wanted in answers(args.folder, KNOWN[args.known]):
        got = answer_at(printed, at)
        if got != wanted:
            tell_difference(name, entry, wanted, got)
            return 1
        at += len(got)
        count += 1
    if at < len(printed):
        print(f"{len(printed) - at} lines too many after {count:,} commands: {cut(printed[at])}")
        return 1
    print(f"{count:,} commands, all answered as expected")
    return 0


if __name__ == "__main__":
    options = arguments()
    sys.exit(run_deep(lambda: check(options)))
