"""Random specifications in basic LOTOS, and the steps of their terms by the inference rules.

A term is a tuple that begins with the name of its form. A set of gates is a sorted tuple, and None stands for all gates. A `map`
is made of relabellings and hidings (term_ends.py).
"""
GATES = ["A", "B", "C"]
# The forms of behaviours. Names of gates are in upper case, so no set of gates begins like one.
FORMS = {"stop", "exit", "prefix", "choice", "par", "hide", "enable", "disable", "call"}


class TooMany(Exception):
    """There are more terms, or more derivations, than are looked at."""


# ---- specifications


class Maker:
    """Random behaviours of a wanted functionality, whose recursion is guarded."""

    def __init__(self, rng):
        self.rng = rng
        self.processes, self.gates = [], GATES

    def names(self, known, least=1):
        return [self.rng.choice(known) for _ in range(self.rng.randint(least, 2))]

    def callable(self, exits, guarded, number):
        return [n for n, p in enumerate(self.processes) if p["exits"] == exits and (guarded or n < number)]

    def behaviour(self, exits, known, room, guarded, number):
        rng, more = self.rng, lambda e, g=guarded, k=known: self.behaviour(e, k, room - 1, g, number)
        if room == 0:
            return ("exit",) if exits else ("stop",)
        form = rng.choice(["end", "prefix", "prefix", "prefix", "choice", "choice", "par", "hide", "enable", "disable", "call", "call"])
        if form == "prefix" or form == "end" and rng.random() < 0.7:
            return ("prefix", rng.choice(known + ["i"]), more(exits, True))
        if form == "choice" or form == "disable":
            other = exits and rng.random() < 0.5
            return (form, *rng.sample([more(exits), more(other)], 2))
        if form == "par":
            sync = rng.choice([None, (), tuple(sorted(set(self.names(known)))), tuple(sorted(set(self.names(known))))])
            sides = [more(exits), more(exits or rng.random() < 0.3)]
            return ("par", sides[0], sync, sides[1])
        if form == "hide":
            hidden = tuple(sorted(set(self.names(known))))
            return ("hide", hidden, more(exits))
        if form == "enable":
            return ("enable", more(True), more(exits, True))
        if form == "call":
            found = self.callable(exits, guarded, number)
            if found:
                called = rng.choice(found)
                return ("call", called, tuple(rng.choice(known) for _ in self.processes[called]["formals"]))
        return ("exit",) if exits else ("stop",)

    def specification(self):
        rng = self.rng
        for _ in range(rng.randint(0, 3)):
            formals = rng.sample(["X", "Y", "Z"], rng.randint(1, 2))
            self.processes.append({"formals": formals, "exits": rng.random() < 0.5})
        for number, process in enumerate(self.processes):
            process["body"] = self.behaviour(process["exits"], process["formals"], rng.randint(1, 4), False, number)
        self.exits = rng.random() < 0.5
        self.start = self.behaviour(self.exits, GATES, rng.randint(2, 5), True, 0)


def shown(t):
    match t:
        case ("stop",) | ("exit",):
            return t[0]
        case ("prefix", action, body):
            return f"({action.lower()}; {shown(body)})"
        case ("choice", left, right):
            return f"({shown(left)} [] {shown(right)})"
        case ("par", left, sync, right):
            sign = "||" if sync is None else "|||" if not sync else f"|[{','.join(sync)}]|"
            return f"({shown(left)} {sign} {shown(right)})"
        case ("hide", gates, body):
            return f"(hide {','.join(gates)} in {shown(body)})"
        case ("enable", left, right):
            return f"({shown(left)} >> {shown(right)})"
        case ("disable", left, right):
            return f"({shown(left)} [> {shown(right)})"
        case ("call", process, gates):
            return f"P{process}[{','.join(gates)}]"


def text_of(made, gates=GATES):
    kind = lambda exits: "exit" if exits else "noexit"
    text = f"specification S [{','.join(gates)}] : {kind(made.exits)} behaviour {shown(made.start)}\n"
    if made.processes:
        text += "where\n"
    for number, p in enumerate(made.processes):
        text += f"process P{number} [{','.join(p['formals'])}] : {kind(p['exits'])} := {shown(p['body'])} endproc\n"
    return text + "endspec\n"


# ---- the inference rules


def is_internal(name):
    return name[0] == "i"


def label_of(name):
    """The label of a step with this name."""
    return "i" if is_internal(name) else name


def named_steps(processes, t):
    """The steps of a term. The name of an internal one is what makes it: `i`, or `i(GATE)` with the name that the gate has at the `hide`, or
    `i(exit)`; that of any other step is its label."""
    match t:
        case ("stop",):
            return []
        case ("exit",):
            return [("exit", ("stop",))]
        case ("prefix", action, body):
            return [(action, body)]
        case ("choice", left, right):
            return named_steps(processes, left) + named_steps(processes, right)
        case ("par", left, sync, right):
            together = lambda k: k == "exit" or not is_internal(k) and (sync is None or k in sync)
            lefts, rights = named_steps(processes, left), named_steps(processes, right)
            found = [(k, ("par", u, sync, v)) for k, u in lefts for j, v in rights if k == j and together(k)]
            found += [(k, ("par", u, sync, right)) for k, u in lefts if not together(k)]
            return found + [(k, ("par", left, sync, v)) for k, v in rights if not together(k)]
        case ("hide", gates, body):
            return [(f"i({k})" if k in gates else k, ("hide", gates, u)) for k, u in named_steps(processes, body)]
        case ("enable", left, right):
            lefts = named_steps(processes, left)
            return [("i(exit)", right) if k == "exit" else (k, ("enable", u, right)) for k, u in lefts]
        case ("disable", left, right):
            found = [(k, u if k == "exit" else ("disable", u, right)) for k, u in named_steps(processes, left)]
            return found + named_steps(processes, right)
        case ("call", process, gates):
            pairs = tuple(zip(processes[process]["formals"], gates))
            return named_steps(processes, ("relabel", pairs, processes[process]["body"]))
        case ("relabel", pairs, body):
            return [(dict(pairs[::-1]).get(k, k), ("relabel", pairs, u)) for k, u in named_steps(processes, body)]
        case ("map", pairs, body):
            return [(dict(pairs).get(k, k), ("map", pairs, u)) for k, u in named_steps(processes, body)]


def steps(processes, t):
    return [(label_of(name), u) for name, u in named_steps(processes, t)]


def derived(processes, start, names):
    """The terms to which derivations by these names, or by labels where only these are known, lead."""
    terms = {start}
    for name in names:
        terms = {u for t in terms for k, u in named_steps(processes, t) if k == name}
    return terms
