"""Random pairs of specifications: two that were drawn apart, or one and what a few changes make of it.

Some changes leave what can be observed as it is, so many pairs have no difference, and many others a late one.
"""
from random_loops import LoopMaker
from random_terms import FORMS, GATES, Maker, text_of

OWN = "D"


class Side:
    """A specification of a pair, with the gates of its own list."""

    def __init__(self, made, gates=GATES):
        self.processes, self.start, self.gates = made.processes, made.start, list(gates)
        self.exits = exits_of(self.processes, self.start)

    def text(self):
        return text_of(self, self.gates)


# ---- the static rules


class Refused(Exception):
    """The specification breaks a static rule."""


def exits_of(processes, t):
    """Whether the functionality of the behaviour is `exit`."""
    of = lambda u: exits_of(processes, u)
    match t:
        case ("stop",) | ("exit",):
            return t == ("exit",)
        case ("prefix" | "hide", _, body):
            return of(body)
        case ("choice" | "disable", left, right):
            return of(left) | of(right)
        case ("par", left, _, right):
            return of(left) & of(right)
        case ("enable", left, right):
            if not of(left):
                raise Refused
            return of(right)
        case ("call", process, _):
            return processes[process]["exits"]


def unguarded(t):
    """The processes that the behaviour calls unguarded."""
    match t:
        case ("call", process, _):
            return {process}
        case ("choice" | "disable", left, right) | ("par", left, _, right):
            return unguarded(left) | unguarded(right)
        case ("hide", _, body) | ("enable", body, _):
            return unguarded(body)
    return set()


def keeps_rules(made):
    """Whether each process has its functionality, each left side of `>>` can exit, and recursion is guarded."""
    try:
        exits_of(made.processes, made.start)
        if any(exits_of(made.processes, p["body"]) != p["exits"] for p in made.processes):
            return False
    except Refused:
        return False
    calls = [unguarded(p["body"]) for p in made.processes]
    left = set(range(len(calls)))
    while bottom := {n for n in left if not calls[n] & left}:
        left -= bottom
    return not left


# ---- changes


def places(t, known, path=()):
    """The behaviours in a behaviour, each with its path and the gates that are known there."""
    yield path, t, known
    if t[0] == "hide":
        known = known + [gate for gate in t[1] if gate not in known]
    for at, part in enumerate(t):
        if at and isinstance(part, tuple) and part and isinstance(part[0], str) and part[0] in FORMS:
            yield from places(part, known, (*path, at))


def replaced(t, path, new):
    if not path:
        return new
    at, *rest = path
    return (*t[:at], replaced(t[at], rest, new), *t[at + 1 :])


def other_of_form(t, known, rng):
    """The behaviour with something else in its outermost form."""
    match t:
        case ("prefix", _, body):
            return ("prefix", rng.choice([*known, "i"]), body)
        case ("choice", left, right):
            return rng.choice([left, right, ("choice", right, left)])
        case ("par", left, _, right):
            return ("par", right, rng.choice([(), None, tuple(sorted(rng.sample(known, 1))), t[2], t[2]]), left)
        case ("disable", left, right):
            return rng.choice([left, ("choice", left, right)])
        case ("enable", left, right):
            return ("enable", left, ("prefix", "i", right))
        case ("call", process, gates):
            return ("call", process, tuple(rng.sample(gates, len(gates))))
        case ("hide", gates, body):
            return ("hide", gates, ("prefix", "i", body))
    return ("prefix", rng.choice([*known, "i", "i"]), t)


def changed(t, known, rng):
    """The behaviour with something around it that changes little or nothing, or with something else in its outermost form."""
    kinds = {
        "other": lambda: other_of_form(t, known, rng),
        "internal": lambda: ("prefix", "i", t),
        "twice": lambda: ("choice", t, t),
        "later": lambda: ("choice", t, ("prefix", "i", t)),
        "or stop": lambda: ("choice", t, ("stop",)),
        "beside": lambda: ("par", t, (), ("exit",)),
        "before": lambda: ("enable", ("exit",), t),
        "hidden": lambda: ("hide", ("U",), t),
        "or more": lambda: ("choice", t, ("prefix", rng.choice(known), ("stop",))),
        "in place": lambda: ("prefix", rng.choice(known), ("stop",)),
    }
    return kinds[rng.choice(["other"] * 5 + list(kinds))]()


def mutant(made, rng):
    """The specification with one change somewhere."""
    while True:
        number = rng.randint(-1, len(made.processes) - 1)
        t, known = (made.start, GATES) if number < 0 else (made.processes[number]["body"], made.processes[number]["formals"])
        path, part, known = rng.choice(list(places(t, list(known))))
        new = replaced(t, path, changed(part, known, rng))
        found = Maker(rng)
        found.start = new if number < 0 else made.start
        found.processes = [p | {"body": new} if n == number else p for n, p in enumerate(made.processes)]
        if keeps_rules(found):
            return found


def renamed(t, names):
    """The behaviour with its gates named so, those that it hides too."""
    match t:
        case ("prefix", action, body):
            return ("prefix", names.get(action, action), renamed(body, names))
        case ("par", left, sync, right):
            return ("par", renamed(left, names), sync and tuple(sorted({names.get(gate, gate) for gate in sync})), renamed(right, names))
        case ("hide", gates, body):
            return ("hide", tuple(sorted({names.get(gate, gate) for gate in gates})), renamed(body, names))
        case ("choice" | "enable" | "disable" as form, left, right):
            return (form, renamed(left, names), renamed(right, names))
        case ("call", process, gates):
            return ("call", process, tuple(names.get(gate, gate) for gate in gates))
    return t


def drawn(rng):
    made = rng.choice([Maker, LoopMaker])(rng)
    made.specification()
    return made


def side_of(made, rng):
    """The specification with its gates in some order; sometimes with one more, or with one that has another name."""
    side = Side(made)
    if rng.random() < 0.15:
        side.gates.append(OWN)
    elif rng.random() < 0.1:
        name = rng.choice(GATES)
        side.gates[side.gates.index(name)] = OWN
        side.start = renamed(side.start, {name: OWN})
    if rng.random() < 0.3:
        rng.shuffle(side.gates)
    return side


def pair(rng):
    """Two specifications."""
    first = drawn(rng)
    second = drawn(rng) if rng.random() < 0.15 else first
    for _ in range(rng.choice([0, 1, 1, 1, 2, 2, 3])):
        second = mutant(second, rng)
    sides = [side_of(first, rng), side_of(second, rng)]
    rng.shuffle(sides)
    return sides
