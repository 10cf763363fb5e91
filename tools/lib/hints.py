"""Lines of standard error that are no messages of their own: what a search warns of, and what could be meant."""
import re

# A name in the words that is no gate of the specification.
WARNING = r"lotosseq: word [0-9]+, \w+, is no gate of the specification and never matches\n"
# What could be meant by it, or by a word that is almost an element.
HINT = (
    r"lotosseq: (?:a gate of the specification has a similar name: \w+|\w+ is hidden at [0-9]+:[0-9]+, so it is not observed"
    r"|\w+ is hidden by --hide|\w+ is not in --only"
    r"|\w+ is a formal gate of the process \w+, and stands for the gate that a call gives|word [0-9]+, [!-~]+, may be meant as <[a-z]+>"
    r"|word [0-9]+, [!-~]+, lacks a blank after <[a-z]+>"
    r"|the names of --hide and --only are joined by commas, one between two names and no blanks"
    r"|a specification is read from standard input: lotosseq [a-z. ]+ <FILE"
    r"|two specifications are read from standard input: cat FIRST SECOND \| lotosseq compare)\n"
)


def without_hints(message):
    """The message without the lines that say what could be meant."""
    return re.sub(f"^{HINT}", "", message, flags=re.M | re.A)


def without_warnings(message):
    """The message without these lines and without warnings."""
    return re.sub(f"^(?:{WARNING}|{HINT})", "", message, flags=re.M | re.A)
