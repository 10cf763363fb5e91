"""Rows with steps that never end, worked by hand: a specification, the words, and lines that are right and that are false."""
from random_terms import Maker

STOP = ("stop",)


def then(*parts):
    """Actions one after the other, and then a behaviour."""
    *actions, t = parts
    for action in reversed(actions):
        t = ("prefix", action, t)
    return t


def either(left, right):
    return ("choice", left, right)


def hide(gates, t):
    return ("hide", tuple(gates), t)


def call(process, gates=""):
    return ("call", process, tuple(gates))


def system(start, *processes):
    made = Maker(None)
    made.processes = [{"formals": list(formals), "exits": False, "body": body} for formals, body in processes]
    made.start, made.exits, made.options, made.refused = start, False, [], None
    return made


# A choice between X, which stops, and Y, which comes back.
ONCE = ("XY", either(then("X", STOP), then("Y", call(0, "XY"))))
# Its gates change places at each turn.
TURNS = ("XY", then("X", call(0, "YX")))

# Below what is tested: the specification, the words, and lines of --hidden that are right, and that are not.
ROWS = [
    (
        "the first gate leads out of the loop",
        system(hide("HK", then("A", call(0, "HK"))), ONCE),
        ["A", "<livelock>"],
        ["A : A <forever> [i(K)]", "A : A <forever> i(K) [i(K) i(K)]"],
        ["A : A <forever> [i(H)]", "A : A <forever> [i(K) i(H)]", "A : A <forever> i(H) [i(K)]", "A : A <forever> [i]"],
    ),
    (
        "a third one does",
        system(
            hide("GHK", call(0, "AGHK")),
            ("XYZW", then("X", call(1, "XYZW"))),
            ("XYZW", either(then("Y", call(0, "XYZW")), either(then("Z", call(1, "XYZW")), then("W", STOP)))),
        ),
        ["<until>", "<livelock>"],
        ["A : A <forever> [i(H)]"],
        ["A : A <forever> [i(K)]", "A : A <forever> [i(G)]", "A : A <forever> [A]"],
    ),
    (
        "before a step of the set",
        system(hide("HK", call(0, "HKC")), ("XYZ", either(then("X", "Z", STOP), then("Y", "Z", call(0, "XYZ"))))),
        ["<forever>", "C"],
        ["<empty> : <empty> <forever> [i(K) C]", "<empty> : <empty> <forever> i(K) [C i(K)]"],
        ["<empty> : <empty> <forever> [i(H) C]", "<empty> : <empty> <forever> i(H) [C i(K)]", "<empty> : <empty> <forever> [C i(K)]"],
    ),
    (
        "in the row",
        system(hide("HK", either(then("H", "B", STOP), then("K", call(0, "B")))), ("X", then("X", call(0, "X")))),
        ["<forever>", "B"],
        ["<empty> : <empty> <forever> i(K) [B]", "<empty> : <empty> <forever> i(K) B [B B]"],
        ["<empty> : <empty> <forever> i(H) [B]", "<empty> : <empty> <forever> i [B]", "i : i(K) <forever> [B]"],
    ),
    (
        "gates that change places",
        system(hide("HK", call(0, "HK")), TURNS),
        ["<livelock>"],
        ["<empty> : <empty> <forever> [i(H) i(K)]", "<empty> : <empty> <forever> i(H) [i(K) i(H)]"],
        ["<empty> : <empty> <forever> [i(H)]", "<empty> : <empty> <forever> [i(K) i(H)]", "<empty> : <empty> <forever> i(H) [i(K)]"],
    ),
    (
        "steps of another side, which are over after two",
        system(hide("HK", ("par", call(0, "K"), (), then("H", "H", STOP))), ("X", then("X", call(0, "X")))),
        ["<livelock>"],
        ["<empty> : <empty> <forever> [i(K)]", "<empty> : <empty> <forever> i(H) i(K) i(H) [i(K)]"],
        ["<empty> : <empty> <forever> [i(H)]", "<empty> : <empty> <forever> i(H) [i(K) i(H)]", "<empty> : <empty> <forever> i(H) i(H) [i(H)]"],
    ),
    (
        "the gate by its name at the hide",
        system(call(0, "A"), ("X", hide("H", then("H", call(1, "H")))), ("X", then("X", call(0, "X")))),
        ["<livelock>"],
        ["<empty> : <empty> <forever> [i(H)]"],
        ["<empty> : <empty> <forever> [i(X)]", "<empty> : <empty> <forever> [i]", "<empty> : <empty> <forever> [i(exit)]"],
    ),
    (
        "the end of a left side",
        system(call(0, "A"), ("X", ("enable", then("i", ("exit",)), call(0, "X")))),
        ["<livelock>"],
        ["<empty> : <empty> <forever> [i i(exit)]"],
        ["<empty> : <empty> <forever> [i]", "<empty> : <empty> <forever> [i(exit) i]"],
    ),
    (
        "the run leads where the loop does not begin",
        system(hide("HK", either(then("H", "A", call(0, "H")), then("K", "A", call(0, "K")))), ("X", then("X", call(0, "X")))),
        ["A", "<livelock>"],
        ["A : i(H) A <forever> [i(H)]", "A : i(K) A <forever> [i(K)]"],
        ["A : i(H) A <forever> [i(K)]", "A : i(K) A <forever> [i(H)]", "A : i A <forever> [i(K)]", "A : A <forever> [i(K)]"],
    ),
    (
        "the run of a branch that stops",
        system(hide("HK", either(then("H", "A", STOP), then("K", "A", call(0, "K")))), ("X", then("X", call(0, "X")))),
        ["A", "<livelock>"],
        ["A : i(K) A <forever> [i(K)]"],
        ["A : i(H) A <forever> [i(K)]", "A : i(H) A <forever> [i(H)]"],
    ),
]
