"""Where the repository is, and what crates.txt says: its crates, each with the libraries that it names."""
import os

TOP = os.path.dirname(os.path.dirname(os.path.dirname(os.path.realpath(__file__))))


def read(path):
    """The text of a file."""
    with open(path, encoding="utf-8") as given:
        return given.read()


def uses_of_crates():
    """Returns the libraries that each crate names, in the order of the file."""
    uses = {}
    for line in read(os.path.join(TOP, "crates.txt")).split("\n"):
        head, _, tail = line.partition("#")[0].partition(":")
        if head.split():
            uses[head.split()[0]] = tail.split()
    return uses
