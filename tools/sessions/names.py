"""What names stand for: every use with the binder that it belongs to, found by walking down with the names that are given there."""

from dataclasses import dataclass

from expressions import LET_SECOND, Let, Var, on_the_way, parts, with_parts


@dataclass(frozen=True)
class OwnName:
    index: int


@dataclass(frozen=True)
class LetAt:
    place: tuple


@dataclass(frozen=True)
class Use:
    name: bytes
    binder: object  # an OwnName, a LetAt, or None if nothing gives the name there


class Walk:
    def __init__(self, own_names):
        self.place = []
        self.uses = {}
        # For each name the binders that give it here, the nearest last.
        self.given = {}
        for index, name in enumerate(own_names):
            self.give(name, OwnName(index))

    def give(self, name, binder):
        self.given.setdefault(name, []).append(binder)

    def nearest(self, name):
        binders = self.given.get(name)
        return binders[-1] if binders else None

    def part(self, number, expr):
        self.place.append(number)
        self.walk(expr)
        self.place.pop()

    def let(self, expr):
        self.part(0, expr.first)
        self.give(expr.name, LetAt(tuple(self.place)))
        self.part(LET_SECOND, expr.second)
        self.given[expr.name].pop()

    def walk(self, expr):
        if isinstance(expr, Var):
            self.uses[tuple(self.place)] = Use(expr.name, self.nearest(expr.name))
        elif isinstance(expr, Let):
            self.let(expr)
        else:
            for number, inner in enumerate(parts(expr)):
                self.part(number, inner)


def uses(own_names, expr):
    """Each use's place, in order from left to right, with the use."""
    walk = Walk(own_names)
    walk.walk(expr)
    return walk.uses


def binders(own_names, expr):
    return {place: use.binder for place, use in uses(own_names, expr).items()}


def places_of(binder, own_names, expr):
    """Where a binder's uses are."""
    return [place for place, use in uses(own_names, expr).items() if use.binder == binder]


def free_names(expr):
    """The names that nothing in the expression gives, in the order in which they come first."""
    found = [use.name for use in uses((), expr).values() if use.binder is None]
    return tuple(dict.fromkeys(found))


def lets_around(expr, place):
    """The names of the lets in whose second part the place lies."""
    way = on_the_way(expr, place)
    return [
        around.name
        for around, number in zip(way, place)
        if isinstance(around, Let) and number == LET_SECOND
    ]


class Replacing:
    def __init__(self, places, new):
        self.places = set(places)
        self.new = new
        self.place = []

    def part(self, number, expr):
        self.place.append(number)
        changed = self.expr(expr)
        self.place.pop()
        return changed

    def expr(self, expr):
        if isinstance(expr, Var):
            return self.new if tuple(self.place) in self.places else expr
        changed = []
        for number, inner in enumerate(parts(expr)):
            changed.append(self.part(number, inner))
        return with_parts(expr, changed)


def with_uses_replaced(expr, places, new):
    """The expression with another in place of the uses at these places."""
    return Replacing(places, new).expr(expr)
