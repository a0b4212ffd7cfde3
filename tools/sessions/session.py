"""Session files: one command a line in hex, `-` for the command of no bytes, comments and blank lines; written, and read back."""

from collections import Counter
from dataclasses import dataclass

import commands
import texts
from commands import (
    Drop, Extract, InlineBind, InlineCall, Load, Names, RenameBind, RenameFunction, RenameParam, Show, TurnIf, Undo,
)
from expressions import function_spelled
from model import ALL, Model, answer_lines

DONE = 0

INTRODUCTION = """\
What a comment says of a command's end holds for a machine that knows all commands;
one that knows fewer refuses those that it doesn't know with 2."""


def as_bytes(name):
    return name.encode() if isinstance(name, str) else name


# What comments say.


def place_text(place):
    if len(place) > 40:
        return f"a place of {len(place):,} numbers"
    return "/" + "/".join(map(str, place))


def ending_text(ending):
    if ending == 1:
        return "no command, 1"
    return "done" if ending == DONE else f"refused, {ending}"


def program_text(program):
    return "; ".join(map(texts.function_text, program)) or "the empty program"


def describe(said):
    """A command in words."""
    name = texts.name_text(said.function) if hasattr(said, "function") else ""
    new_name = texts.name_text(said.new_name) if hasattr(said, "new_name") else ""
    place = place_text(said.place) if hasattr(said, "place") else ""
    match said:
        case Load():
            return f"load {program_text(said.program)}"
        case Show():
            return f"show {name}"
        case Names():
            return "names"
        case RenameBind():
            return f"rename the let of {name} at {place} to {new_name}"
        case RenameParam():
            return f"rename own name {said.index} of {name} to {new_name}"
        case RenameFunction():
            return f"rename {name} to {new_name}"
        case Extract():
            return f"extract what is in {name} at {place} as {new_name}"
        case InlineBind():
            return f"put the let of {name} at {place} in place"
        case InlineCall():
            return f"put the call of {name} at {place} in place"
        case TurnIf():
            return f"turn the if of {name} at {place}"
        case Drop():
            return f"drop {name}"
        case Undo():
            return "undo"


def kind_of(row, ending):
    """What command the bytes were, by how they ended."""
    return "no command" if ending == 1 else commands.KINDS[row[0]].__name__


class Session:
    """A session as it is written. Each command is told to the model at once, and ends as its writer expects, or the writing fails."""

    def __init__(self, name, purpose):
        self.name = name
        self.model = Model(ALL)
        self.lines = []
        self.outcomes = Counter()
        self.comment(purpose)
        self.comment(INTRODUCTION)

    def comment(self, text):
        self.lines += [f"# {line}" for line in text.splitlines()]

    def section(self, title):
        self.lines.append("")
        self.comment(f"== {title}")

    def write(self, path):
        path.write_text("\n".join(self.lines) + "\n")

    # Bytes, commands or not.

    def say_line(self, line, row, ends=None):
        """Bytes, as the line spells them."""
        rows, ending = self.model.say(row)
        assert ends in (None, ending), f"{self.name}: ends {ending} and not {ends}: {line[:200]}"
        self.outcomes[kind_of(row, ending), ending] += 1
        self.lines.append(line)
        return rows, ending

    def say(self, row, ends=None):
        return self.say_line(row.hex() or "-", row, ends)

    def bytes(self, words, row, ends=None):
        """Bytes under a comment that says what they are and how they end."""
        at = len(self.lines)
        rows, ending = self.say(row, ends)
        self.lines.insert(at, f"# {words}: {ending_text(ending)}")
        return rows

    # Commands, under a comment that says why they end so.

    def command(self, said, ends=DONE, why=""):
        words = f"{describe(said)}, {why}" if why else describe(said)
        return self.bytes(words, commands.spelled(said), ends)

    def load(self, text, ends=DONE, why=""):
        self.command(Load(texts.program(text)), ends, why)

    def load_large(self, words, program, ends=DONE):
        self.bytes(f"load {words}", commands.spelled(Load(program)), ends)

    def show(self, name="main", ends=DONE):
        self.command(Show(as_bytes(name)), ends)

    def shows(self, text):
        """Show a function, which has to be this."""
        wanted = texts.function(text)
        rows = self.command(Show(wanted.name), why=f"which is {texts.function_text(wanted)}")
        assert rows == [function_spelled(wanted)], f"{self.name}: {text} is not what is shown"

    def names(self, *wanted):
        """Names, which have to be these."""
        rows = self.command(Names(), why="which are " + (", ".join(wanted) or "none"))
        assert rows == [as_bytes(name) for name in wanted], f"{self.name}: {wanted} are not the names"

    def all_names(self):
        self.command(Names())

    def undo(self, ends=DONE):
        self.command(Undo(), ends)

    def rename_bind(self, function, place, new_name, ends=DONE, why=""):
        self.command(RenameBind(as_bytes(function), tuple(place), as_bytes(new_name)), ends, why)

    def rename_param(self, function, index, new_name, ends=DONE, why=""):
        self.command(RenameParam(as_bytes(function), index, as_bytes(new_name)), ends, why)

    def rename_function(self, function, new_name, ends=DONE, why=""):
        self.command(RenameFunction(as_bytes(function), as_bytes(new_name)), ends, why)

    def extract(self, function, place, new_name, ends=DONE, why=""):
        self.command(Extract(as_bytes(function), tuple(place), as_bytes(new_name)), ends, why)

    def inline_bind(self, function, place, ends=DONE, why=""):
        self.command(InlineBind(as_bytes(function), tuple(place)), ends, why)

    def inline_call(self, function, place, ends=DONE, why=""):
        self.command(InlineCall(as_bytes(function), tuple(place)), ends, why)

    def turn_if(self, function, place, ends=DONE, why=""):
        self.command(TurnIf(as_bytes(function), tuple(place)), ends, why)

    def drop(self, function, ends=DONE, why=""):
        self.command(Drop(as_bytes(function)), ends, why)


@dataclass
class Entry:
    """A command of a session file, with the comment line that stands nearest before it."""

    line: int
    comment: str
    row: bytes


def entries(path):
    found = []
    comment = ""
    for number, line in enumerate(path.read_text().split("\n"), start=1):
        body = line.strip(" \t\r\n")
        if body.startswith("#"):
            comment = body
        elif body:
            found.append(Entry(number, comment, b"" if body == "-" else bytes.fromhex(body)))
    return found


def expected(found, known):
    """For each entry the lines that a machine prints which knows these commands; a session begins with the empty program."""
    model = Model(known)
    return [answer_lines(*model.say(entry.row)) for entry in found]
