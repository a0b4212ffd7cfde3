"""The machine on trees: a program, up to eight before it, and what each command does to them.

Written from the rules as they are told in words, so that it is a second opinion on the proved machine. Whether a renaming captures
is found by resolving every use before and after.
"""

import sys
import threading
from dataclasses import replace

import commands
from commands import (
    Drop, Extract, InlineBind, InlineCall, Load, Names, RenameBind, RenameFunction, RenameParam, Show, TurnIf, Undo,
)
from expressions import (
    BELOW, EQUAL, MAIN, MOST_FUNCTIONS, MOST_OWN_NAMES, MOST_PROGRAM_BYTES, SUBTRACT,
    Bin, Call, Function, If, Let, Num, Var, at, called, function_spelled, nodes, parts, program_spelled, put_at,
    with_parts,
)
from names import LetAt, OwnName, binders, free_names, lets_around, places_of, with_uses_replaced

HISTORY_DEPTH = 8

NO_COMMAND = 1
NOT_KNOWN = 2
NOT_THERE = 3
NAME_TAKEN = 4
MEANS_ANOTHER = 5
NOT_OF_THAT_KIND = 6
TOO_LARGE = 7
NOTHING_BEFORE = 9

HISTORY = frozenset({Load, Show, Names, Undo})
CORE = HISTORY | {RenameBind, RenameParam}
ALL = frozenset(commands.KINDS.values())
KNOWN = {"none": frozenset(), "history": HISTORY, "core": CORE, "all": ALL}


class Refused(Exception):
    def __init__(self, number):
        self.number = number


def refuse_if(condition, number):
    if condition:
        raise Refused(number)


def distinct(names):
    return len(set(names)) == len(names)


def same_binders(function, changed):
    return binders(function.own_names, function.body) == binders(changed.own_names, changed.body)


def is_quiet(expr, given):
    """Whether it tells nothing and can't go wrong where these names are given."""
    return all(is_quiet_node(found, given) for found in nodes(expr))


def is_quiet_node(found, given):
    match found:
        case Num() | If():
            return True
        case Var():
            return found.name in given
        case Bin():
            return found.op in (SUBTRACT, EQUAL, BELOW)
        case _:
            return False


def with_lets(names, values, body):
    """The body under a let for each name, the first outermost."""
    for name, value in zip(reversed(names), reversed(values)):
        body = Let(name, value, body)
    return body


def given_to_an_earlier(names, values):
    """Whether some value uses a name that a value before it is given to."""
    return any(
        name in free_names(later) for index, name in enumerate(names) for later in values[index + 1 :]
    )


class Model:
    """Says of each row of bytes what is shown and how it ends: 0 for done, or the number of the refusal."""

    def __init__(self, known=ALL):
        self.known = known
        self.program = ()
        self.before = ()

    def say(self, row):
        try:
            return self.answer(commands.read(row)), 0
        except Refused as refused:
            return [], refused.number

    def answer(self, said):
        refuse_if(said is None, NO_COMMAND)
        refuse_if(type(said) not in self.known, NOT_KNOWN)
        return self.ACTIONS[type(said)](self, said) or []

    # Finding what a command speaks of.

    def find(self, name):
        for function in self.program:
            if function.name == name:
                return function
        return None

    def function(self, name):
        found = self.find(name)
        refuse_if(found is None, NOT_THERE)
        return found

    def part(self, said):
        """The function and what is there."""
        function = self.function(said.function)
        found = at(function.body, said.place)
        refuse_if(found is None, NOT_THERE)
        return function, found

    def part_of_kind(self, said, cls):
        function, found = self.part(said)
        refuse_if(not isinstance(found, cls), NOT_OF_THAT_KIND)
        return function, found

    def is_called(self, name, functions):
        return any(name in called(function.body) for function in functions)

    def is_taken(self, name):
        return name == MAIN or self.find(name) is not None or self.is_called(name, self.program)

    # Changing the program.

    def commit(self, program):
        refuse_if(len(program) > MOST_FUNCTIONS, TOO_LARGE)
        refuse_if(len(program_spelled(program)) > MOST_PROGRAM_BYTES, TOO_LARGE)
        self.before = ((self.program,) + self.before)[:HISTORY_DEPTH]
        self.program = program

    def with_changed(self, changed):
        """The program with this in place of the function of the same name."""
        return tuple(changed if function.name == changed.name else function for function in self.program)

    def commit_at(self, function, place, new):
        changed = replace(function, body=put_at(function.body, place, new))
        self.commit(self.with_changed(changed))

    def commit_renamed(self, function, changed):
        refuse_if(not same_binders(function, changed), MEANS_ANOTHER)
        self.commit(self.with_changed(changed))

    # The commands. Each refuses in the order in which the numbers are to be said.

    def load(self, said):
        refuse_if(not distinct([function.name for function in said.program]), NAME_TAKEN)
        refuse_if(not all(distinct(function.own_names) for function in said.program), NAME_TAKEN)
        self.program = said.program
        self.before = ()

    def show(self, said):
        return [function_spelled(self.function(said.function))]

    def names(self, said):
        return [function.name for function in self.program]

    def rename_bind(self, said):
        function, _ = self.part_of_kind(said, Let)
        its_uses = places_of(LetAt(said.place), function.own_names, function.body)
        body = with_uses_replaced(function.body, its_uses, Var(said.new_name))
        let = replace(at(body, said.place), name=said.new_name)
        self.commit_renamed(function, replace(function, body=put_at(body, said.place, let)))

    def rename_param(self, said):
        function = self.function(said.function)
        refuse_if(said.index >= len(function.own_names), NOT_THERE)
        own_names = list(function.own_names)
        own_names[said.index] = said.new_name
        refuse_if(not distinct(own_names), MEANS_ANOTHER)
        its_uses = places_of(OwnName(said.index), function.own_names, function.body)
        body = with_uses_replaced(function.body, its_uses, Var(said.new_name))
        self.commit_renamed(function, replace(function, own_names=tuple(own_names), body=body))

    def rename_function(self, said):
        self.function(said.function)
        refuse_if(said.function == MAIN, NOT_OF_THAT_KIND)
        refuse_if(self.is_taken(said.new_name), NAME_TAKEN)
        self.commit(tuple(renamed_throughout(function, said.function, said.new_name) for function in self.program))

    def extract(self, said):
        function, found = self.part(said)
        refuse_if(self.is_taken(said.new_name), NAME_TAKEN)
        free = free_names(found)
        given = set(function.own_names).union(lets_around(function.body, said.place))
        refuse_if(not given.issuperset(free), MEANS_ANOTHER)
        refuse_if(len(free) > MOST_OWN_NAMES, TOO_LARGE)
        call = Call(said.new_name, tuple(Var(name) for name in free))
        changed = replace(function, body=put_at(function.body, said.place, call))
        self.commit(self.with_changed(changed) + (Function(said.new_name, free, found),))

    def inline_bind(self, said):
        function, let = self.part_of_kind(said, Let)
        given = set(function.own_names).union(lets_around(function.body, said.place))
        refuse_if(not is_quiet(let.first, given), MEANS_ANOTHER)
        # The let taken for itself is at the place of no numbers.
        its_uses = places_of(LetAt(()), (), let)
        its_names = set(free_names(let.first))
        for place in its_uses:
            refuse_if(its_names.intersection(lets_around(let.second, place[1:])), MEANS_ANOTHER)
        self.commit_at(function, said.place, with_uses_replaced(let, its_uses, let.first).second)

    def inline_call(self, said):
        function, call = self.part_of_kind(said, Call)
        goal = self.find(call.name)
        refuse_if(goal is None, MEANS_ANOTHER)
        refuse_if(len(call.values) != len(goal.own_names), MEANS_ANOTHER)
        refuse_if(not set(goal.own_names).issuperset(free_names(goal.body)), MEANS_ANOTHER)
        refuse_if(given_to_an_earlier(goal.own_names, call.values), MEANS_ANOTHER)
        self.commit_at(function, said.place, with_lets(goal.own_names, call.values, goal.body))

    def turn_if(self, said):
        function, choice = self.part_of_kind(said, If)
        condition = Bin(EQUAL, choice.condition, Num(0))
        self.commit_at(function, said.place, If(condition, choice.otherwise, choice.then))

    def drop(self, said):
        dropped = self.function(said.function)
        others = tuple(function for function in self.program if function is not dropped)
        refuse_if(dropped.name == MAIN or self.is_called(dropped.name, others), NOT_OF_THAT_KIND)
        self.commit(others)

    def undo(self, said):
        refuse_if(not self.before, NOTHING_BEFORE)
        self.program, *older = self.before
        self.before = tuple(older)

    ACTIONS = {
        Load: load, Show: show, Names: names, RenameBind: rename_bind, RenameParam: rename_param,
        RenameFunction: rename_function, Extract: extract, InlineBind: inline_bind, InlineCall: inline_call,
        TurnIf: turn_if, Drop: drop, Undo: undo,
    }


def with_calls_renamed(expr, old, new):
    changed = []
    for inner in parts(expr):
        changed.append(with_calls_renamed(inner, old, new))
    expr = with_parts(expr, changed)
    return replace(expr, name=new) if isinstance(expr, Call) and expr.name == old else expr


def renamed_throughout(function, old, new):
    """The function, itself and what it calls by the new name."""
    name = new if function.name == old else function.name
    return replace(function, name=name, body=with_calls_renamed(function.body, old, new))


def answer_lines(rows, ending):
    """An answer as the player of sessions prints it."""
    lines = [f"shows {row.hex()}" for row in rows]
    return lines + ["done" if ending == 0 else f"refused {ending}"]


def run_deep(action):
    """Runs an action with room for recursion over 65,000 levels; says what it returned, or raises what it raised."""
    sys.setrecursionlimit(1_000_000)
    threading.stack_size(1 << 29)
    outcome = []

    def run():
        try:
            outcome.append((action(), None))
        except BaseException as error:
            outcome.append((None, error))

    thread = threading.Thread(target=run)
    thread.start()
    thread.join()
    returned, error = outcome[0]
    if error is not None:
        raise error
    return returned
