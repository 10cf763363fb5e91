"""Random patterns, how they are spelled, and what they match. An element is its words, and so is a set of labels."""
import re

from random_terms import GATES


def label_set(rng, labels):
    """One label, several, or `<not>` and some of them. A name may be repeated."""
    names = ",".join(rng.choice(labels) for _ in range(rng.choice([1, 1, 2, 3])))
    return rng.choice([(rng.choice(labels),), (names,), ("<not>", names)])


def wide_set(rng, labels):
    """A set, which may be that of all labels."""
    return ("<any>",) if rng.random() < 0.2 else label_set(rng, labels)


def end(rng, labels, is_later):
    """A demand on the last term, or on what can come after it, alone or after any number of labels."""
    words = rng.choice(["<livelock>", "<forever>", "<never>"] if is_later else ["<deadlock>", "<refuses>", "<refuses>"])
    demand = (words,) if words in ("<deadlock>", "<livelock>") else (words, *wide_set(rng, labels))
    return rng.choice([demand, ("<until>", *demand), ("<until>", *demand)])


def elements(rng, strong, gates, unknown, is_later):
    labels = [*gates, "exit", *unknown] + (["i", "I"] if strong else [])
    found = []
    # What can come is asked where a pattern is matched, which few elements often are.
    for _ in range(rng.choice([0, 0, 1, 2]) if is_later else rng.randint(0, 4)):
        kind = rng.choice(["one", "one", "any", "until", "while", "whiles"])
        found.append(
            {
                "one": lambda: label_set(rng, labels),
                "any": lambda: ("<any>",),
                "until": lambda: ("<until>", *label_set(rng, labels)),
                "while": lambda: ("<while>", *label_set(rng, labels)),
                "whiles": lambda: ("<while>", "<any>"),
            }[kind]()
        )
    if is_later or rng.random() < 0.5:
        found.append(end(rng, labels, is_later))
    return found


def pattern_words(rng, strong, later, gates=GATES, unknown=("D",)):
    """The words of a pattern; sometimes one is left out or put in. With this probability its end is about what can come after it."""
    words = [word for element in elements(rng, strong, gates, unknown, rng.random() < later) for word in element]
    if rng.random() < 0.1:
        at = rng.randint(0, len(words))
        words[at : at + rng.randint(0, 1)] = rng.choice([[], [rng.choice([*KINDS, *LATER, "A", "i", "A,"])]])
    return words


# ---- spelling

# What a word is on its own, as a letter; names are L, or I if the internal action is among them and not observed.
KINDS = {"<any>": "A", "<not>": "N", "<until>": "U", "<while>": "W", "<deadlock>": "D", "<refuses>": "R"}
# Ends about what can come after them, and what they are like. To a search they are S, since it does not answer them.
LATER = {"<livelock>": "D", "<forever>": "R", "<never>": "R"}
SET, WIDE = "(?:L|NL)", "(?:L|NL|A)"
END = f"(?:D|R{WIDE})"
ELEMENT = re.compile(f"{WIDE}|U{SET}|W{WIDE}|U?{END}")
# How the words may begin where no element does, and what is then said of the last of these words. The first one counts.
FAULTS = [
    ("(?:U?R|W|U)?N?I", "E45 word {} is i, which cannot be observed"),
    ("(?:U?R|W|U)?N", "E50 word {} needs a label after it"),
    ("U?R", "E50 word {} needs a label after it"),
    ("U?S", "E51 word {} is answered by ever alone"),
    ("W", "E48 word {} needs a label or <any> after it"),
    ("U", "E42 word {} needs a label or <deadlock> after it"),
    (".", "E41 word {} is neither a label nor an element"),
]


def kind_of(word, strong, is_ever):
    names = [named(name) for name in word.split(",")]
    if word in LATER:
        return LATER[word] if is_ever else "S"
    if word in KINDS or not all(re.fullmatch("[A-Za-z][A-Za-z0-9_]*", name) for name in names):
        return KINDS.get(word, "X")
    return "I" if "i" in names and not strong else "L"


def read(words, strong, is_ever):
    """The elements that the words spell, and None; or None, and why they spell no pattern."""
    kinds = "".join(kind_of(word, strong, is_ever) for word in words)
    found, at = [], 0
    while at < len(words):
        if demand_of(found) is not None:
            return None, f"E43 word {at + 1} follows an end element"
        element = ELEMENT.match(kinds, at)
        if element is None:
            begun = ((re.compile(form).match(kinds, at), text) for form, text in FAULTS)
            return None, next(text.format(match.end()) for match, text in begun if match)
        found.append(tuple(words[at : element.end()]))
        at = element.end()
    return found, None


# ---- what is matched

ENDS = ("<deadlock>", "<refuses>", *LATER)


def named(word):
    return word.lower() if word.lower() in ("exit", "i") else word.upper()


def is_in(label, words):
    """Whether the label is in the set that these words spell. No words are the empty set."""
    if not words or words[-1] == "<any>":
        return bool(words)
    among = label in [named(name) for name in words[-1].split(",")]
    return not among if words[0] == "<not>" else among


def demand_of(pattern):
    """What the last element demands of the last term, as a word and the words of a set; None if it demands nothing."""
    words = pattern[-1] if pattern else ()
    words = words[1:] if words[:1] == ("<until>",) else words
    if words == ("<deadlock>",):
        return "<refuses>", ("<any>",)
    if words == ("<livelock>",):
        return "<forever>", ()
    return (words[0], words[1:]) if words and words[0] in ENDS else None


def segments(element, s):
    """How long the beginnings of the sequence are that the element takes."""
    match element:
        case ("<any>",):
            return [1] if s else []
        case (word, *_) if word in ENDS:
            return [0]
        case ("<until>", word, *_) if word in ENDS:
            return range(len(s) + 1)
        case ("<while>", "<any>"):
            return range(len(s) + 1)
        case ("<until>", *words):
            return [n + 1 for n in range(len(s)) if is_in(s[n], words) and not any(is_in(k, words) for k in s[:n])]
        case ("<while>", *words):
            return [n for n in range(len(s) + 1) if all(is_in(k, words) for k in s[:n])]
        case words:
            return [1] if s and is_in(s[0], words) else []


def matches(pattern, s):
    if not pattern:
        return not s
    return any(matches(pattern[1:], s[n:]) for n in segments(pattern[0], s))


def may_match(pattern, s):
    """Whether some sequence that begins so matches."""
    if not s:
        return True
    if not pattern:
        return False
    element = pattern[0]
    if any(may_match(pattern[1:], s[n:]) for n in segments(element, s) if n < len(s)) or len(s) in segments(element, s):
        return True
    return element[0] == "<until>" and not any(is_in(k, element[1:]) for k in s)
