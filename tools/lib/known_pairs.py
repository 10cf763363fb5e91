"""Pairs of specifications whose first difference was worked out by hand, and the examples with themselves."""
import glob
import os

from first_differences import Comparison, Sets
from lotos_reader import read_all

EXAMPLES = os.path.join(os.path.dirname(os.path.realpath(__file__)), "..", "..", "examples")

# A buffer for one message; and a server that answers by RSP, or after an internal step by NAK; one that chooses at once; one without NAK.
BUFFER = """specification S [put, get] : noexit behaviour P [put, get]
where process P [put, get] : noexit := put; get; P [put, get] endproc endspec"""
SERVER = """specification D [req, rsp, nak] : noexit behaviour S [req, rsp, nak]
where process S [req, rsp, nak] : noexit := req; (rsp; S [req, rsp, nak] [] i; nak; S [req, rsp, nak]) endproc endspec"""
SERVER_AT_ONCE = SERVER.replace("i; nak", "nak")
SERVER_ALONE = """specification D [req, rsp] : noexit behaviour S [req, rsp]
where process S [req, rsp] : noexit := req; rsp; S [req, rsp] endproc endspec"""
# A choice after A, and one at it.
LATER = "specification T [a, b, c] : noexit behaviour a; (b; stop [] c; stop) endspec"
AT_ONCE = "specification T [a, b, c] : noexit behaviour a; b; stop [] a; c; stop endspec"
# Two sides that meet unseen, and then C; and two that do not.
MEETING = "specification G [a, b, c] : exit behaviour hide s in ((a; s; exit) |[s]| (s; b; exit)) >> c; exit endspec"
ROW = "specification G [a, b, c] : exit behaviour a; b; c; exit endspec"
ROW_TWICE = "specification G [a, b, c] : exit behaviour a; b; (c; exit [] i; b; exit) endspec"
# After A B one is busy for ever, and the other stops.
BUSY = """specification V [a, b] : noexit behaviour hide h in P [a, b, h]
where process P [a, b, h] : noexit := a; (h; P [a, b, h] [] b; Q [h]) endproc
      process Q [h] : noexit := h; Q [h] endproc endspec"""
STUCK = """specification V [a, b] : noexit behaviour P [a, b]
where process P [a, b] : noexit := a; (i; P [a, b] [] b; stop) endproc endspec"""


def example(name):
    with open(os.path.join(EXAMPLES, name + ".lotos"), encoding="utf-8") as file:
        return file.read()


def names():
    """The examples."""
    return sorted(os.path.basename(path).removesuffix(".lotos") for path in glob.glob(os.path.join(EXAMPLES, "*.lotos")))


# Two texts, the words, and the line; no difference if there is none.
ROWS = [
    (example("link"), BUFFER, [], "< PUT GET GET"),
    (BUFFER, example("link"), [], "> PUT GET GET"),
    (BUFFER, example("link"), ["--within"], None),
    (example("link"), BUFFER, ["--within"], "< PUT GET GET"),
    (SERVER, SERVER_AT_ONCE, [], None),
    (SERVER, SERVER_AT_ONCE, ["--strong"], "> REQ NAK"),
    (SERVER, SERVER_ALONE, [], "< REQ NAK"),
    (SERVER_ALONE, SERVER, ["--within"], None),
    (LATER, AT_ONCE, [], None),
    (MEETING, ROW, [], None),
    (MEETING, ROW, ["--strong"], "> A B"),
    (MEETING, ROW, ["--strong", "--within"], "< A i"),
    (MEETING, ROW_TWICE, [], "> A B B"),
    (MEETING, ROW_TWICE, ["--within"], None),
    (BUSY, STUCK, [], None),
    (STUCK, BUSY, ["--within"], None),
]


def compared(text, words):
    """The comparison of the two specifications of a text."""
    one, other = (Sets(made.processes, made.start, "--strong" in words) for made in read_all(text))
    return Comparison(one, other, "--within" in words)


def see():
    """Fails if one of the comparisons is not as it should be."""
    for one, other, words, difference in ROWS:
        output = compared(one + "\n" + other, words).output()
        assert output == ("" if difference is None else difference + "\n"), f"{one}\n{other}\n{words}: {output!r}, not {difference}"
    for name in names():
        output = compared(example(name) * 2, []).output()
        assert output == "", f"{name} with itself: {output!r}"
