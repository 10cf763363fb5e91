"""Reads specifications in basic LOTOS that keep the rules: what random_terms.py makes, from a text."""
import re

from random_terms import FORMS

SIGNS = re.compile(r"\(\*.*?\*\)|\[>|>>|\|\|\||\|\[|\]\||\|\||\[\]|:=|[A-Za-z]\w*|[;\[\](),:]", re.S)
PARALLEL = {"|||", "||", "|["}


class Specification:
    """The gates of a specification's own list, its behaviour, and all of its processes, those inside others too."""

    def __init__(self):
        self.gates, self.processes, self.start = [], [], None


class Reader:
    """What is left of a text of one specification or several."""

    def __init__(self, text):
        self.words = [word.upper() for word in SIGNS.findall(text) if not word.startswith("(*")]
        self.at, self.made, self.scopes = 0, None, []

    def next(self):
        return self.words[self.at] if self.at < len(self.words) else ""

    def take(self, *wanted):
        word = self.next()
        if wanted and word not in wanted:
            raise ValueError(f"{word} at word {self.at} in place of {wanted}")
        self.at += 1
        return word

    def takes(self, word):
        """Takes the word if it comes next."""
        is_next = self.next() == word
        self.at += is_next
        return is_next

    def names(self, close):
        found = [self.take()]
        while self.takes(","):
            found.append(self.take())
        self.take(close)
        return found

    def gates(self):
        return self.names("]") if self.takes("[") else []

    def specification(self):
        self.made, self.scopes = Specification(), []
        self.take("SPECIFICATION")
        self.take()
        self.made.gates = self.gates()
        self.take(":")
        self.made.exits = self.take("EXIT", "NOEXIT") == "EXIT"
        self.take("BEHAVIOUR", "BEHAVIOR")
        body, scope = self.whole()
        self.take("ENDSPEC")
        self.made.start = resolved(body, [scope])
        for process, scopes in self.scopes:
            process["body"] = resolved(process["body"], scopes)
        return self.made

    def whole(self, outer=()):
        """A behaviour and the processes after its `where`, by their names."""
        body, scope = self.behaviour(), {}
        if self.takes("WHERE"):
            while self.next() == "PROCESS":
                self.process(scope, [scope, *outer])
        return body, scope

    def process(self, scope, scopes):
        self.take("PROCESS")
        process = {"formals": None, "exits": None}
        scope[self.take()] = len(self.made.processes)
        self.made.processes.append(process)
        process["formals"] = self.gates()
        self.take(":")
        process["exits"] = self.take("EXIT", "NOEXIT") == "EXIT"
        self.take(":=")
        process["body"], inner = self.whole(scopes)
        self.take("ENDPROC")
        self.scopes.append((process, [inner, *scopes]))

    def behaviour(self):
        """The loosest forms, which group to the right as all do."""
        if self.takes("HIDE"):
            gates = tuple(sorted(set(self.names("IN"))))
            return ("hide", gates, self.behaviour())
        left = self.disabled()
        return ("enable", left, self.behaviour()) if self.takes(">>") else left

    def right(self, form):
        return self.behaviour() if self.next() == "HIDE" else form()

    def disabled(self):
        left = self.composed()
        return ("disable", left, self.right(self.disabled)) if self.takes("[>") else left

    def composed(self):
        left = self.chosen()
        if self.next() not in PARALLEL:
            return left
        sign = self.take()
        sync = {"|||": (), "||": None}[sign] if sign != "|[" else tuple(sorted(set(self.names("]|"))))
        return ("par", left, sync, self.right(self.composed))

    def chosen(self):
        left = self.prefixed()
        return ("choice", left, self.right(self.chosen)) if self.takes("[]") else left

    def prefixed(self):
        if self.takes("("):
            body = self.behaviour()
            self.take(")")
            return body
        name = self.take()
        if self.takes(";"):
            return ("prefix", "i" if name == "I" else name, self.right(self.prefixed))
        if name in ("STOP", "EXIT"):
            return (name.lower(),)
        return ("call", name, tuple(self.gates()))


def resolved(t, scopes):
    """The behaviour with the numbers of the processes that it calls."""
    if t[0] == "call":
        return ("call", next(scope[t[1]] for scope in scopes if t[1] in scope), t[2])
    return tuple(resolved(part, scopes) if isinstance(part, tuple) and part and part[0] in FORMS else part for part in t)


def read_all(text):
    """The specifications of a text, one after the other."""
    reader, found = Reader(text), []
    while reader.next():
        found.append(reader.specification())
    return found
