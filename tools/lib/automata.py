"""Automata of what can be observed: the least one of a deterministic graph, its text in the Aldebaran format, how such a text is read, and
the lines of its test suites.

An automaton is a list with a dictionary for each state, by its number: labels, and the states that they lead to. State 0 is the first.
"""
import re


class Wrong(Exception):
    """What is wrong with the text of an automaton."""


def ascending(ways):
    return sorted(ways, key=str.encode)


def least(start, after):
    """The least automaton of the graph from this state on. States are numbered in the order of the first sequences that lead to them."""
    states, met = [start], {start}
    for state in states:
        states += [target for target in dict.fromkeys(after[state].values()) if target not in met]
        met.update(after[state].values())
    # States are told apart by their labels, then by the classes that these lead to, until nothing changes.
    classes, count = dict.fromkeys(states, 0), 1
    while True:
        seen = {}
        told = {s: (classes[s], frozenset((k, classes[t]) for k, t in after[s].items())) for s in states}
        classes = {s: seen.setdefault(told[s], len(seen)) for s in states}
        if len(seen) == count:
            break
        count = len(seen)
    firsts, numbers = [start], {classes[start]: 0}
    for state in firsts:
        for k in ascending(after[state]):
            target = after[state][k]
            if classes[target] not in numbers:
                numbers[classes[target]] = len(firsts)
                firsts.append(target)
    return [{k: numbers[classes[t]] for k, t in after[state].items()} for state in firsts]


def text_of(automaton):
    """The text of the automaton."""
    transitions = [(state, k, ways[k]) for state, ways in enumerate(automaton) for k in ascending(ways)]
    head = f"des (0, {len(transitions)}, {len(automaton)})\n"
    return head + "".join(f'({state}, "{k}", {target})\n' for state, k, target in transitions)


def read(text):
    """The automaton of a text. It has to be the least one, as text_of writes it."""
    head, *lines = text.split("\n")
    found = re.fullmatch(r"des \(0, (\d+), (\d+)\)", head)
    if not found or lines[-1:] != [""]:
        raise Wrong(f"the text begins with {head!r}, and ends with {text[-20:]!r}")
    automaton = [{} for _ in range(int(found[2]))]
    for line in lines[:-1]:
        parts = re.fullmatch(r'\((\d+), "([A-Z]\w*|exit|i)", (\d+)\)', line)
        if not parts or max(int(parts[1]), int(parts[3])) >= len(automaton) or parts[2] in automaton[int(parts[1])]:
            raise Wrong(f"{line!r} is no transition of it")
        automaton[int(parts[1])][parts[2]] = int(parts[3])
    if len(lines) - 1 != int(found[1]):
        raise Wrong(f"{found[1]} transitions are said to be there, and {len(lines) - 1} are")
    if text_of(automaton) != text:
        raise Wrong("the transitions are not in the order of their states and labels")
    if least(0, automaton) != automaton:
        raise Wrong("states are not in their order, or two of them have the same future")
    return automaton


def sequences_of(automaton, most):
    """The sequences of at most so many labels, shorter ones first, then in the order of their labels."""
    level = [((), 0)]
    for length in range(most + 1):
        yield from (sequence for sequence, _ in level)
        if length < most:
            level = [(sequence + (k,), automaton[state][k]) for sequence, state in level for k in ascending(automaton[state])]


def state_after(automaton, state, sequence):
    """The state that the sequence leads to from this one, and None if it cannot come."""
    for k in sequence:
        state = automaton[state].get(k)
        if state is None:
            return None
    return state


def in_order(sequences):
    """Shorter ones first, then in the order of their labels."""
    return sorted(sequences, key=lambda s: (len(s), [k.encode() for k in s]))


def accesses(automaton):
    """The first sequence that leads to each state."""
    level, found = [((), 0)], {0: ()}
    while level:
        longer = ((s + (k,), automaton[state][k]) for s, state in level for k in ascending(automaton[state]))
        level = []
        for sequence, target in longer:
            if target not in found:
                found[target] = sequence
                level.append((sequence, target))
    return [found[state] for state in sorted(found)]


def first_apart(automaton, one, other):
    """The first sequence that one of the two states can do and the other cannot."""
    level, met = [((), one, other)], {(one, other)}
    while level:
        following = []
        for sequence, first, second in level:
            for k in ascending({*automaton[first], *automaton[second]}):
                if k not in automaton[first] or k not in automaton[second]:
                    return sequence + (k,)
                pair = automaton[first][k], automaton[second][k]
                if pair not in met:
                    met.add(pair)
                    following.append((sequence + (k,), *pair))
        level = following
    raise Wrong(f"states {one} and {other} have the same future")


def suite_of(automaton, labels, extra):
    """The lines of the suite, over whole sets of words."""
    apart = {first_apart(automaton, k, j) for j in range(len(automaton)) for k in range(j)}
    fronts, longest = {()}, [()]
    for _ in range(extra + 1):
        longest = [s + (k,) for s in longest for k in labels]
        fronts.update(longest)
    lines = {}
    for word in (v + x + w for v in accesses(automaton) for x in fronts for w in {(), *apart}):
        able = next((n for n in range(len(word)) if state_after(automaton, 0, word[: n + 1]) is None), None)
        lines[word if able is None else word[: able + 1]] = "+" if able is None else "-"
    begun = {s[:n] for s in lines for n in range(len(s))}
    return [f"{lines[s]} {' '.join(s) or '<empty>'}" for s in in_order(lines) if s not in begun]
