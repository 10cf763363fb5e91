"""Questions of `compare` about random pairs of specifications, and what is wrong with an answer."""
import re

from first_differences import Comparison, Sets
from lines import labels_of, line, order
from random_pairs import OWN, pair
from random_terms import GATES, TooMany
from term_ends import merged

MOST_OF_PAIR = 300
MOST_UNMERGED = 150
NO_DIFFERENCE = re.compile(r"lotosseq: no difference; (?:1 pair|(\d+) pairs) of sets\n")
OVER_TERMS = re.compile(r"lotosseq: stopped: more than (\d+) terms at (.*) in the (first|second) specification\n")
OVER_PAIRS = re.compile(r"lotosseq: stopped: more than (\d+) pairs of sets; --states N allows more\n")


class PairCase:
    """A pair of specifications, the options, and the first difference by the definitions."""

    def __init__(self, rng):
        self.within, self.strong = rng.random() < 0.35, rng.random() < 0.25
        self.terms, self.states = rng.choice([None] * 7 + [1, 2, 4]), rng.choice([None] * 7 + [1, 2, 4, 10])
        self.option, self.names, self.refused = None, [], None
        # Few pairs without a label that both can do are kept.
        while True:
            self.sides = pair(rng)
            self.see_one_side(rng)
            try:
                self.found = self.comparison(merged)
            except TooMany:
                continue
            if len(self.found.access) > 3 or self.found.difference and self.found.difference[1] or rng.random() < 0.1:
                return

    def see_one_side(self, rng):
        """Draws the gates of --hide or --only, or neither; sometimes one of the names is no gate of either specification."""
        self.option, self.names, self.refused = rng.choice([None, None, "--hide", "--only"]), [], None
        if self.option is None:
            return
        self.names = [rng.choice([*GATES, *GATES, OWN]) for _ in range(rng.choice([1, 1, 2, 3]))]
        if rng.random() < 0.05:
            self.names.insert(rng.randint(0, len(self.names)), "E")
        unknown = next((name for name in self.names if all(name not in side.gates for side in self.sides)), None)
        if unknown is not None:
            self.refused = ("", 2, f"lotosseq: E52 {unknown} is no gate of the specification\n")

    def asked(self, side):
        """The behaviour of a specification, with a `hide` of what is hidden for the question."""
        hidden = [gate for gate in side.gates if self.option and (gate in self.names) == (self.option == "--hide")]
        return ("hide", tuple(sorted(hidden)), side.start) if hidden else side.start

    def comparison(self, shown, most=MOST_OF_PAIR):
        sets = [Sets(side.processes, self.asked(side), self.strong, shown, most) for side in self.sides]
        return Comparison(*sets, self.within, MOST_OF_PAIR)

    def text(self):
        return "".join(side.text() for side in self.sides)

    def options(self):
        return ["--strong"] * self.strong + ([self.option, ",".join(self.names)] if self.option else [])

    def words(self):
        bounds = (["--terms", str(self.terms)] if self.terms else []) + (["--states", str(self.states)] if self.states else [])
        return ["compare", *["--within"] * self.within, *bounds, *self.options()]

    def unmerged(self):
        """The comparison by the terms as they are, of which normal forms are no more; None if there are too many."""
        try:
            return self.comparison(lambda t: t, MOST_UNMERGED)
        except TooMany:
            return None

    def fewest(self):
        """The least numbers of pairs of sets, and of normal forms in the largest set, up to the difference."""
        try:
            return self.found.fewest()
        except TooMany:
            return 1, 1

    def wrong(self, answer):
        """What kind of answer it is, and what is wrong with it, in words; None if it is right."""
        if self.refused is not None:
            return "refused", None if answer == self.refused else f"{self.refused} is wanted"
        output, status, message = answer
        pairs, largest = self.fewest()
        most = self.unmerged()
        if (output, status) == ("", 4):
            return self.wrong_stop(message, most)
        if self.terms and largest > self.terms or self.states and pairs > self.states:
            return "no stop", f"{pairs} pairs of sets come up before the difference, the largest with {largest} normal forms"
        if self.found.difference is not None:
            expected = (self.found.output(), 1, "")
            return f"difference in label {len(self.found.sequence())}", None if answer == expected else f"{expected} is wanted"
        none = NO_DIFFERENCE.fullmatch(message)
        if (output, status) != ("", 0) or not none:
            return "no difference", "no difference is wanted"
        is_right = pairs <= int(none[1] or 1) and (most is None or int(none[1] or 1) <= len(most.access))
        return "no difference", None if is_right else f"{pairs} to {most and len(most.access)} pairs of sets come up"

    def wrong_stop(self, message, most):
        """The same of a stop at a bound."""
        over = OVER_PAIRS.fullmatch(message)
        if over:
            is_right = int(over[1]) == self.states and (most is None or len(most.access) > self.states)
            return "stopped at pairs", None if is_right else "there are not so many pairs of sets before the difference"
        over = OVER_TERMS.fullmatch(message)
        if not over or int(over[1]) != self.terms:
            return "stopped", "no such stop is wanted"
        s = labels_of(over[2])
        reached = [sets.reached(s) for sets in (self.found.one, self.found.other)]
        if not all(reached) or self.found.difference is not None and s and order(s[:-1]) >= order(self.found.difference[1]):
            return "stopped at terms", f"{line(s)} is no sequence of both before the difference"
        number = ["first", "second"].index(over[3])
        try:
            plain = most is None or len([most.one, most.other][number].reached(s)) > self.terms
        except TooMany:
            plain = True
        return "stopped at terms", None if plain else f"{line(s)} does not reach so many terms"

    def tellings(self):
        """Questions of `ever` that tell the two apart: the words, the text, and whether it matches."""
        if self.refused is not None or self.found.difference is None:
            return
        mark, s = self.found.difference[0], self.found.sequence()
        for number, side in enumerate(self.sides):
            # A name that is no gate of the one would be refused.
            names = [name for name in self.names if name in side.gates]
            if self.option == "--only" and not names:
                continue
            options = ["--strong"] * self.strong + ([self.option, ",".join(names)] if names else [])
            yield ["ever", *options, *s], side.text(), s if (mark == "<") == (number == 0) else None


def told_apart(sequence, answer):
    """What kind of answer a question has that tells two specifications apart, and what is wrong with it."""
    output, status, message = answer
    if sequence is not None:
        return "match", None if answer == (line(sequence) + "\n", 0, "") else "a match is wanted"
    is_never = status == 1 and message.startswith("lotosseq: it happens at no depth; ")
    is_refused = status == 2 and re.fullmatch(r"lotosseq: E49 word \d+ is no gate of the specification\n", message)
    return "no gate" if is_refused else "never", None if output == "" and (is_never or is_refused) else "no match is wanted"
