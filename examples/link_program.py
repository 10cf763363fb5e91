#!/usr/bin/env python3
"""The link as a program: it reads lines PUT, and writes lines GET.

usage: link_program.py [--early | --kept | --once] [--user] [--seed N]

Sender, receiver and media are those of link_under_test.py, and so are the faults that --early and --kept give the link. With --once it has
another one: the sender does not repeat. A random generator decides which possible step is made, about one a millisecond. It begins with
the seed N, 1 if it is not given, and with the number of the run that the variable LOTOSSEQ_RUN has, so the runs of a test differ. With
--user the link has its user in it: nothing is read, and it writes PUT whenever it takes a message. Without it the end of standard input
ends the program, once nothing is under way.
"""
import argparse
import os
import random
import select
import signal
import sys
import time

sys.dont_write_bytecode = True
from link_under_test import LINKS, steps

# How long a step takes.
SECONDS = 0.001


class Messages:
    """The messages that wait: lines of standard input."""

    def __init__(self):
        self.waiting, self.rest, self.at_end = 0, b"", False

    def look(self, seconds):
        """Reads what is there, or comes so soon; None waits for it."""
        if not self.at_end and select.select([0], [], [], seconds)[0]:
            part = os.read(0, 65536)
            *lines, self.rest = (self.rest + part).split(b"\n")
            self.waiting += sum(line.strip().upper() == b"PUT" for line in lines)
            self.at_end = not part


class User:
    """A user who always has a message."""

    waiting, at_end = 1, False

    def look(self, seconds):
        """Nothing is read."""


def is_timer(state, step):
    """Whether with this step the sender begins to repeat a message."""
    return state[0] == "waiting" and step[1][0] == "sending"


def next_step(state, fault, messages, chance):
    """A step that the link makes; None if nothing is possible without a message and none comes any more."""
    link = LINKS.get(fault, LINKS[""])
    while True:
        messages.look(0)
        possible = [step for step in steps(state, link) if step[0] != "PUT" or messages.waiting]
        possible = [step for step in possible if fault != "--once" or not is_timer(state, step)]
        if possible:
            return possible[int(chance.random() * len(possible))]
        if messages.at_end:
            return None
        messages.look(None)


def words_given():
    words = argparse.ArgumentParser(prog="link_program.py", usage=__doc__.split("\n\n")[1].removeprefix("usage: "))
    faults = words.add_mutually_exclusive_group()
    for fault in ("--early", "--kept", "--once"):
        faults.add_argument(fault, dest="fault", action="store_const", const=fault, default="")
    words.add_argument("--user", action="store_true")
    words.add_argument("--seed", type=int, default=1)
    return words.parse_args()


def main():
    given = words_given()
    chance = random.Random(f"{given.seed} {os.environ.get('LOTOSSEQ_RUN', '0')}")
    messages, state = User() if given.user else Messages(), ("idle", False, "frame", False)
    while step := next_step(state, given.fault, messages, chance):
        label, state = step
        if label == "PUT" and not given.user:
            messages.waiting -= 1
        elif label:
            print(label, flush=True)
        time.sleep(SECONDS)


if __name__ == "__main__":
    # It ends as programs do that these signals end.
    for number in (signal.SIGPIPE, signal.SIGINT):
        signal.signal(number, signal.SIG_DFL)
    main()
