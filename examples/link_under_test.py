#!/usr/bin/env python3
"""Runs each line of a suite against a link, and asks `lotosseq after` whether what was observed can happen.

usage: link_under_test.py [--early | --kept] SPECIFICATION <SUITE

The lines are those of `lotosseq cover`, or with a sign those of `lotosseq suite`. With --early the link has a fault: it replies to a frame
before it has delivered it. With --kept it has another one: if the sender takes a reply while the receiver has one more to send, that one
is sent, and the receiver still has it. The program is ./lotosseq, or what the variable LOTOSSEQ names. The status is 0 if the suite was
run, whatever came of it, and 2 if it could not be run to its end.
"""
import os
import random
import signal
import subprocess
import sys

PROGRAM = os.environ.get("LOTOSSEQ", "./lotosseq")
# How often a line of a cover is tried, and one of a suite, for which a link has to be lucky more often.
COVER_RUNS, SUITE_RUNS = 100, 2000
# How many steps of the link the tester waits for a label.
PATIENCE = 30
# What the receiver does in turn: as specified, and with the fault.
IN_ORDER = {"frame": "get", "get": "reply", "reply": "frame"}
EARLY = {"frame": "reply", "reply": "get", "get": "frame"}
# For each option what the receiver does in turn, and whether it keeps a reply that is sent when another one is taken.
LINKS = {"": (IN_ORDER, False), "--early": (EARLY, False), "--kept": (IN_ORDER, True)}


class NoVerdict(Exception):
    """Why it is not known whether what was observed can happen."""


def steps(state, link):
    """What the link can do next, and its state afterwards; the label of an internal step is None."""
    sender, frame, receiver, reply = state
    follows, keeps = link
    follow = follows[receiver]
    if sender == "idle":
        yield "PUT", ("sending", frame, receiver, reply)
    if sender == "sending" and not frame:
        yield None, ("waiting", True, receiver, reply)
    if sender == "waiting":
        yield None, ("sending", frame, receiver, reply)  # The timer runs out.
    if sender == "waiting" and reply:
        yield None, ("idle", frame, receiver, keeps and receiver == "reply")
    if frame and receiver == "frame":
        yield None, (sender, False, follow, reply)
    if frame:
        yield None, (sender, False, receiver, reply)  # The frame is lost.
    if receiver == "get":
        yield "GET", (sender, frame, follow, reply)
    if receiver == "reply" and not reply:
        yield None, (sender, frame, follow, True)
    if reply:
        yield None, (sender, frame, receiver, False)  # The reply is lost.


def wait(state, link, label, chance):
    """The label that comes, None if none does, and the state afterwards. The tester puts only if the label is PUT."""
    for _ in range(PATIENCE):
        possible = [step for step in steps(state, link) if step[0] in (None, "GET", label)]
        if not possible:
            break
        came, state = possible[int(chance.random() * len(possible))]
        if came:
            return came, state
    return None, state


def observe(labels, link, chance):
    """What comes while the tester goes along these labels. It stops where something else comes."""
    state, observed = ("idle", False, "frame", False), []
    for label in labels:
        came, state = wait(state, link, label, chance)
        observed += [came] if came else []
        if came != label:
            break
    return observed


def verdict(specification, observed):
    """Nothing if what was observed can happen, and otherwise what `after` says."""
    with open(specification, "rb") as text:
        asked = subprocess.run([PROGRAM, "after", *observed], stdin=text, capture_output=True, text=True, check=False)
    # Other statuses than these two are no answers.
    if asked.returncode not in (0, 1):
        raise NoVerdict(f"{PROGRAM} ended with status {asked.returncode}: {asked.stderr.strip()}")
    return "" if asked.returncode == 0 else f"  {' '.join(observed)}\n  {asked.stderr}"


def try_line(specification, link, line):
    """Writes how many runs go along the sequence of a line, up to its last label if that has to be refused, and the verdict."""
    sign, sequence = (line[0], line[1:]) if line[:1] in (["+"], ["-"]) else ("", line)
    # A line without a sign does not say what has to be refused after it, so one more message is offered.
    labels, count = (sequence, SUITE_RUNS) if sign else ([*sequence, "PUT"], COVER_RUNS)
    runs = [observe(labels, link, random.Random(seed)) for seed in range(count)]
    wanted = sequence[:-1] if sign == "-" else sequence
    along = sum(observed[: len(wanted)] == wanted for observed in runs)
    failed = "".join(verdict(specification, observed) for observed in sorted(set(map(tuple, runs))))
    # A file of its own, so that nothing is left to be written when Python ends.
    with open(1, "w", encoding="utf-8", closefd=False) as output:
        output.write(f"{' '.join(line)}: {along} of {count} runs go along, {'FAIL' if failed else 'pass' if along else 'open'}\n{failed}")


def main():
    if len(sys.argv) < 2 or sys.argv[1:-1] not in ([], ["--early"], ["--kept"]):
        print(__doc__.split("\n\n")[1], file=sys.stderr)
        return 2
    link = LINKS["".join(sys.argv[1:-1])]
    specification = sys.argv[-1]
    try:
        with open(0, encoding="utf-8", closefd=False) as suite:
            for line in suite:
                try_line(specification, link, line.split())
    except (OSError, UnicodeDecodeError, NoVerdict) as why:
        print(f"link_under_test.py: {why}", file=sys.stderr)
        return 2
    return 0


if __name__ == "__main__":
    try:
        sys.exit(main())
    except KeyboardInterrupt:
        # Ends as a program does that this signal ends.
        signal.signal(signal.SIGINT, signal.SIG_DFL)
        os.kill(os.getpid(), signal.SIGINT)
