"""The public functions of the crates, with their comments and their clauses, as the texts of the files have them."""
import glob
import os
import re

from crates import TOP, read

COMMENT = re.compile(r"(?<!\S)//.*")
FUNCTION = re.compile(r"^[ \t]*((?:pub(?:\(crate\))? )?)fn (\w+)", re.M)
OWNER = re.compile(r"^(?:impl(?:<[^>]*>)?|pub trait|trait) (?:\w+ for )?(\w+).*?^}", re.M | re.S)
TRAIT = re.compile(r"^pub trait.*?^}", re.M | re.S)
CLAUSE = re.compile(r"\b(ensures|requires)\*?\s*(\w*)\s*\{")


class Clause:
    """A clause: whether it is `ensures` or `requires`, its name, which may be empty, and its text."""

    def __init__(self, kind, name, text):
        self.kind, self.name, self.text = kind, name, text


class Function:
    """A function or a method: where it is, the type or the trait that has it, or None, its name, its comment and its clauses."""

    def __init__(self, module, owner, name, comment, clauses):
        self.module, self.owner, self.name, self.comment, self.clauses = module, owner, name, comment, clauses


class Module:
    """A file of code. Its `code` is its text with blanks in the place of comments."""

    def __init__(self, path):
        self.crate, self.name = path.split(os.sep)[-3], os.path.basename(path)[: -len(".rt")]
        self.text = read(path)
        self.code = COMMENT.sub(lambda comment: " " * len(comment.group()), self.text)

    def functions(self):
        """The functions that the crate shows; those of a trait that it shows are public without the word."""
        names, whole = shown_by(self.crate)
        found, heads = list(FUNCTION.finditer(self.code)), list(OWNER.finditer(self.code))
        traits = [trait.span() for trait in TRAIT.finditer(self.code)]
        for number, it in enumerate(found):
            owner = next((head.group(1) for head in heads if head.start() < it.start() < head.end()), None)
            in_trait = any(begun < it.start() < ended for begun, ended in traits)
            shown = self.name in whole or (self.name, owner or it.group(2)) in names
            if shown and (it.group(1) == "pub " or in_trait):
                end = found[number + 1].start() if number + 1 < len(found) else len(self.code)
                yield Function(self, owner, it.group(2), self.comment_above(it.start()), list(clauses_in(self.code[it.end() : end])))

    def comment_above(self, place):
        """The paragraphs of the comment that ends above a place, each as one line; lines with two slashes are no part of it."""
        lines = []
        for line in reversed(self.text[:place].split("\n")[:-1]):
            if not re.match(r"\s*(//|#\[)", line):
                break
            lines += re.findall(r"^\s*/// ?(.*)", line)
        return [" ".join(paragraph.split()) for paragraph in "\n".join(reversed(lines)).split("\n\n")]


def clauses_in(code):
    """The clauses of a function's text, each up to the brace that closes it."""
    for clause in CLAUSE.finditer(code):
        place, open_ones = clause.end(), 1
        while open_ones and place < len(code):
            open_ones += {"{": 1, "}": -1}.get(code[place], 0)
            place += 1
        yield Clause(clause.group(1), clause.group(2), code[clause.end() : place - 1])


def shown_by(crate):
    """The names that a crate shows, each with its module, and the modules that it shows whole; a program shows none."""
    path = os.path.join(TOP, "crates", crate, "src", "lib.rt")
    if not os.path.isfile(path):
        return set(), set()
    text, names = read(path), set()
    for module, several, one in re.findall(r"^pub use (\w+)::(?:\{([^}]*)\}|(\w+));", text, re.M):
        names |= {(module, name.strip()) for name in (several or one).split(",")}
    return names, set(re.findall(r"^pub mod (\w+);", text, re.M))


def modules(crate="*"):
    """The files of code of a crate, or of all, without those that only name others."""
    paths = sorted(glob.glob(os.path.join(TOP, "crates", crate, "src", "*.rt")))
    return [Module(path) for path in paths if os.path.basename(path) not in ("lib.rt", "main.rt")]
