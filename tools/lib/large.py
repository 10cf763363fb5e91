"""Large texts and large rows of words by kind, each of a size that can be doubled; for `tools/hostile`."""
import random


def numbered(word, count):
    return [f"{word}{number}" for number in range(count)]


def texts(gates, behaviour, processes=(), kind="noexit"):
    """A specification as bytes."""
    listed = f" [{','.join(gates)}]" if gates else ""
    rest = "\nwhere\n" + "\n".join(processes) if processes else ""
    return f"specification S{listed} : {kind}\nbehaviour\n{behaviour}{rest}\nendspec\n".encode()


def process(name, body, gates="x", kind="noexit"):
    return f"process {name} [{gates}] : {kind} := {body} endproc"


def tree(operator, leaf, count):
    """So many leaves as a balanced tree."""
    if count == 1:
        return leaf
    return f"({tree(operator, leaf, count // 2)} {operator} {tree(operator, leaf, count - count // 2)})"


def chain(operator, leaf):
    return lambda count: texts(["a"], f" {operator} ".join([leaf] * count))


def balanced(operator, leaf):
    return lambda count: texts(["a"], tree(operator, leaf, count))


def repeated(piece):
    return lambda count: piece * count


def random_bytes(count):
    return random.Random(count).randbytes(count)


def similar_names(length):
    """A gate that is not declared, and two whose names have one letter more or less."""
    name = "g" * length
    return texts([name + "a", name[1:]], f"{name}; stop")


def long_names(length):
    """A process with a long name, a quarter of whose text are gates that are not used."""
    gates = ",".join(numbered("g", length // 32))
    return texts(["a"], "a; stop", [process("P" * (length // 2), "stop", gates)])


def many_processes(count):
    return texts(["a"], "P0 [a]", [process(name, "x; stop") for name in numbered("P", count)])


def calls(step, last):
    """Processes each of which calls another one, and the last of them."""
    def made(count):
        named = [process(f"P{n}", step.format(n + 1)) for n in range(count - 1)] + [process(f"P{count - 1}", last)]
        return texts(["a"], "P0 [a]", named)
    return made


def calls_backwards(count):
    named = [process("P0", "x; stop")] + [process(f"P{n}", f"x; P{n - 1} [x]") for n in range(1, count)]
    return texts(["a"], f"P{count - 1} [a]", named)


def wrong_functionalities(count):
    """Each process is exit because the next one is; the first is declared noexit."""
    named = [process(f"P{n}", f"x; P{n + 1} [x]", kind="exit") for n in range(count)] + [process(f"P{count}", "exit", kind="exit")]
    return texts(["a"], "P0 [a]", named)


def declared_twice(count):
    return texts(["a"], "stop", [process(name, "stop") for name in [*numbered("P", count), "P0"]])


def nested_scopes(count):
    """Rows of processes with processes of their own, six deep."""
    row = "stop endproc"
    for depth in range(6):
        row = f"R{depth} [x] where process R{depth} [x] : noexit := {row} endproc"
    return texts(["a"], "stop", [f"process {name} [x] : noexit := {row}" for name in numbered("P", count)])


def own_gates(count):
    """A process with so many gates, which calls itself with them."""
    gates = ",".join(numbered("g", count))
    return texts([gates], f"P [{gates}]", [process("P", f"g0; P [{gates}]", gates)])


def rotated_gates(count):
    """The same with the gates in the next order, so that there are as many states as gates."""
    gates = numbered("g", count)
    formal, actual = ",".join(gates), ",".join(gates[1:] + gates[:1])
    return texts([formal], f"P [{formal}]", [process("P", f"g0; P [{actual}]", formal)])


def other_count(count):
    return texts(["a"], f"P [{','.join(['a'] * count)}]", [process("P", "x; stop")])


def hidden(count):
    gates = ",".join(numbered("g", count))
    return texts(["a"], f"hide {gates} in a; g0; stop")


def synchronized(gates_of):
    def made(count):
        gates = gates_of(count)
        return texts(sorted(set(gates)), f"{gates[0]}; stop |[{','.join(gates)}]| {gates[0]}; stop")
    return made


# A kind has a maker and the smaller of its two sizes; the larger one has twice as many parts.
KINDS = {
    "blanks": (repeated(b" "), 1 << 19),
    "line feeds": (repeated(b"\n"), 1 << 19),
    "carriage returns": (repeated(b"\r"), 1 << 19),
    "zeros": (repeated(b"\0"), 1 << 19),
    "digits": (repeated(b"1"), 1 << 19),
    "underscores": (repeated(b"a_"), 1 << 18),
    "random bytes": (random_bytes, 1 << 19),
    "stars": (repeated(b"*"), 1 << 19),
    "empty comments": (repeated(b"(**)"), 1 << 17),
    "open comments": (repeated(b"(*"), 1 << 18),
    "one comment": (lambda count: b"(*" + b"*" * count + b"*)", 500_000),
    "one name": (lambda count: texts(["a" * count], "stop"), 1 << 18),
    "reserved words": (repeated(b"stop "), 100_000),
    "foreign letters": (repeated("\u00e4".encode()), 1 << 18),
    "open parentheses": (repeated(b"("), 1 << 19),
    "open parentheses of a behaviour": (lambda count: texts(["a"], "(" * count), 500_000),
    "hidings of hidings": (lambda count: texts(["a"], "hide a in " * count + "stop"), 50_000),
    "prefixes": (lambda count: texts(["a"], "a; " * count + "stop"), 150_000),
    "internal steps": (lambda count: texts(["a"], "i; " * count + "stop"), 150_000),
    "choices": (chain("[]", "a; stop"), 40_000),
    "interleavings": (chain("|||", "a; stop"), 4_000),
    "full synchronizations": (chain("||", "a; stop"), 40_000),
    "parallel compositions": (chain("|[a]|", "a; stop"), 30_000),
    "disablings": (chain("[>", "a; stop"), 4_000),
    "enablings": (chain(">>", "exit"), 50_000),
    "tree of choices": (balanced("[]", "a; stop"), 30_000),
    "tree of interleavings": (balanced("|||", "a; stop"), 4_000),
    "tree of disablings": (balanced("[>", "a; stop"), 4_000),
    "gates": (lambda count: texts(numbered("g", count), "stop"), 60_000),
    "equal gates": (lambda count: texts(["a"] * count, "stop"), 200_000),
    "hidden gates": (hidden, 60_000),
    "synchronized gates": (synchronized(lambda count: numbered("g", count)), 30_000),
    "one synchronized gate": (synchronized(lambda count: ["a"] * count), 200_000),
    "too many actual gates": (other_count, 200_000),
    "gates of a process": (own_gates, 18_000),
    "rotated gates": (rotated_gates, 250),
    "similar names": (similar_names, 60_000),
    "long names": (long_names, 200_000),
    "processes": (many_processes, 11_000),
    "processes with processes": (nested_scopes, 1_000),
    "a process twice": (declared_twice, 11_000),
    "calls": (calls("x; P{} [x]", "stop"), 10_000),
    "calls that come back": (calls("x; P{} [x]", "x; P0 [x]"), 10_000),
    "calls of earlier processes": (calls_backwards, 10_000),
    "calls beside stop": (calls("P{} [x] ||| stop", "x; stop"), 1_000),
    "unguarded calls": (calls("P{} [x]", "P0 [x]"), 10_000),
    "wrong functionalities": (wrong_functionalities, 10_000),
}

SEARCH = ["search", "--depth", "1"]

# Rows of words that are many or long, and the smaller of their two sizes. The system takes at most 128 KiB in one word.
WORDS = {
    "many elements": (lambda count: SEARCH + ["A"] * count, 30_000),
    "many labels to follow": (lambda count: ["after"] + ["A"] * count, 30_000),
    "many options": (lambda count: ["search"] + ["--strong"] * count, 20_000),
    "many words in one": (lambda count: [*SEARCH, " ".join(["<any>"] * count)], 10_000),
    "blanks around a word": (lambda count: [*SEARCH, " " * count + "A" + " " * count], 30_000),
    "a label": (lambda count: [*SEARCH, "A" * count], 60_000),
    "a label of ever": (lambda count: ["ever", "A" * count], 60_000),
    "a set of labels": (lambda count: [*SEARCH, ",".join(numbered("A", count))], 8_000),
    "a set of one label": (lambda count: [*SEARCH, "<not>", ",".join(["A"] * count)], 30_000),
    "commas": (lambda count: [*SEARCH, "," * count], 60_000),
    "angle brackets": (lambda count: [*SEARCH, "<" * count], 60_000),
    "a mark of one label": (lambda count: [*SEARCH, "--after", "A" * count, "<any>"], 60_000),
    "a mark of many labels": (lambda count: [*SEARCH, "--after", " ".join(["A"] * count), "<any>"], 30_000),
    "one gate to hide, often": (lambda count: [*SEARCH, "--hide", ",".join(["A"] * count), "<any>"], 30_000),
    "gates that are none": (lambda count: [*SEARCH, "--only", ",".join(numbered("Z", count)), "<any>"], 8_000),
    "a number": (lambda count: ["search", "--depth", "9" * count, "A"], 60_000),
    "zeros before a number": (lambda count: ["search", "--depth", "0" * count + "1", "A"], 60_000),
    "an option": (lambda count: ["search", "--" + "d" * count], 60_000),
    "a command": (lambda count: ["s" * count], 60_000),
    "escapes": (lambda count: [*SEARCH, "\x1b[31m" * count], 10_000),
    "turned writing": (lambda count: [*SEARCH, "\u202e" * count], 20_000),
    "ligatures": (lambda count: [*SEARCH, "\ufb01" * count], 20_000),
    "Kelvin signs": (lambda count: [*SEARCH, "\u212a" * count], 20_000),
    "quotes": (lambda count: [*SEARCH, "\"'" * count], 30_000),
}
