"""Random specifications with internal steps that go round, beside others that lead elsewhere, and questions about such steps.

Processes permute the gates with which they call, branches stop, hide a gate of their own, choose again, or go on by `>>`; around the calls
several gates are hidden.
"""
from random_patterns import label_set, wide_set
from random_terms import GATES, Maker

HIDDEN = ["H", "K", "L"]


class LoopMaker(Maker):
    """Makes them. What must exit is of functionality `exit`, anything else of `noexit`."""

    def call(self, exits, known):
        """A call with gates in some order, which mostly are several; what ends, if there is no such process."""
        rng, found = self.rng, [n for n, p in enumerate(self.processes) if p["exits"] == exits]
        if not found:
            return ("exit",) if exits else ("stop",)
        called = rng.choice(found)
        wanted = len(self.processes[called]["formals"])
        if len(known) < wanted or rng.random() < 0.1:
            return ("call", called, tuple(rng.choice(known) for _ in range(wanted)))
        return ("call", called, tuple(rng.sample(known, wanted)))

    def tail(self, exits, known):
        rng = self.rng
        match rng.choice(["end", "prefix", "call", "call", "call"]):
            case "end":
                return ("exit",) if exits else ("stop",)
            case "prefix":
                return ("prefix", rng.choice(known), self.tail(exits, known))
        return self.call(exits, known)

    def prefixed(self, known, t):
        for _ in range(self.rng.choice([1, 1, 1, 2])):
            t = ("prefix", self.rng.choice([*known, *known, "i"]), t)
        return t

    def branch(self, exits, known, room=1):
        """A behaviour whose calls are guarded."""
        rng = self.rng
        form = rng.choice(["prefix", "prefix", "prefix", "prefix", "hide", "enable", "again"]) if room else "prefix"
        if form == "hide":
            gate = rng.choice(HIDDEN)
            return ("hide", (gate,), self.branch(exits, [*known, gate], room - 1))
        if form == "enable":
            return ("enable", self.prefixed(known, ("exit",) if rng.random() < 0.7 else self.call(True, known)), self.tail(exits, known))
        if form == "again":
            return self.prefixed(known, self.choice(exits, known, room - 1))
        return self.prefixed(known, self.tail(exits, known))

    def choice(self, exits, known, room=1):
        sides = [self.branch(exits, known, room)]
        for _ in range(self.rng.choice([0, 1, 1, 1, 2])):
            sides.append(self.branch(exits and self.rng.random() < 0.5, known, room))
        self.rng.shuffle(sides)
        t = sides.pop()
        while sides:
            t = ("choice", sides.pop(), t)
        return t

    def whole(self, exits, known, room=1):
        """What is around the calls."""
        rng = self.rng
        side = lambda e=exits: self.call(e, known) if rng.random() < 0.7 else self.choice(e, known)
        match rng.choice(["call", "choice", "choice", "par", "disable", "enable"]) if room else "side":
            case "call":
                return self.call(exits, known)
            case "choice":
                return self.choice(exits, known)
            case "par":
                sync = rng.choice([(), (), (rng.choice(known),), tuple(sorted(rng.sample(known, 2)))])
                return ("par", side(), sync, side())
            case "disable":
                return ("disable", self.whole(exits, known, room - 1), self.branch(False, known))
            case "enable":
                return ("enable", self.whole(True, known, room - 1), side())
        return side()

    def specification(self):
        rng = self.rng
        for _ in range(rng.choice([1, 1, 2, 2, 3])):
            formals = ["X", "Y", "Z"][: rng.choice([1, 2, 2, 2, 3])]
            self.processes.append({"formals": formals, "exits": rng.random() < 0.2})
        for process in self.processes:
            process["body"] = self.choice(process["exits"], process["formals"])
        self.exits = rng.random() < 0.15
        hidden = rng.sample(HIDDEN, rng.choice([0, 1, 2, 2, 2, 3]))
        t = self.whole(self.exits, hidden + rng.sample(GATES, max(2 - len(hidden), rng.choice([0, 1, 1, 2]))))
        around = rng.randint(0, len(hidden))
        for gates in (hidden[around:], hidden[:around]):
            t = ("prefix", rng.choice(GATES), t) if rng.random() < 0.2 else t
            t = ("hide", tuple(sorted(gates)), t) if gates else t
        self.start = t


def loop_words(rng, strong, gates):
    """The words of a question about steps that never end."""
    labels = [*gates, "exit"] + ["i"] * strong
    label = lambda: rng.choice(gates or labels)
    before = [(), (), ("<until>",), ("<until>",), (label(),), (label(),), (label(), "<until>"), ("<any>",), ("<any>", "<until>")]
    before += [(label(), label()), ("<while>", *label_set(rng, labels)), ("<while>", "<any>"), ("<until>", *label_set(rng, labels))]
    end = ("<livelock>",) if rng.random() < 0.5 else ("<forever>", *wide_set(rng, labels))
    return [*rng.choice(before), *end]
