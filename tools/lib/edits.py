"""The edits that make code wrong: where they are, and whether each fits the file that it names.

An edit has a line `file:`, and then pairs of lines `old:` and `new:`, one after the other: each old text is once in the file as the
pairs before it left it. The gate tries those of crates/NAME/must-fail, tools/try-edits those of crates/NAME/wrong-bodies too.
"""
import os
import re

TIERS = ("must-fail", "wrong-bodies")
NAME = re.compile(r"[A-Za-z0-9_-][A-Za-z0-9_.-]*\.edit")
FOLDERS = ("src/", "specs/", "proofs/")
# What a line of an edit that is not read begins with.
COMMENTS = ("#", "--", "//")


def crates_of(top):
    """Returns the names of the crates below a checkout."""
    return sorted(it.name for it in os.scandir(os.path.join(top, "crates")) if it.is_dir())


def edits_of(top, crate, tier):
    """Returns the names of a crate's edits of one tier, and the names of what else its folder has but texts."""
    folder = os.path.join(top, "crates", crate, tier)
    names = sorted(os.listdir(folder)) if os.path.isdir(folder) else []
    edits = [it for it in names if NAME.fullmatch(it) and os.path.isfile(os.path.join(folder, it))]
    return edits, [it for it in names if it not in edits and not it.endswith(".md")]


def contents(path):
    with open(path, encoding="utf-8") as given:
        return given.read()


class Misfit(Exception):
    """Why an edit does not fit."""


class Edit:
    """An edit that is applied line by line to the texts of a crate's files."""

    def __init__(self, folder):
        self.folder = folder
        self.texts, self.before = {}, {}
        self.path = self.old = None
        self.pairs = 0

    def read(self, line):
        if line.startswith("file: "):
            self.name_file(line[len("file: ") :].strip())
        elif line.startswith("old: "):
            if self.old is not None:
                raise Misfit("an `old:` line has no `new:` line after it")
            self.old = line[len("old: ") :]
        elif line.startswith("new:"):
            self.replace(re.sub(r"\A ", "", line[len("new:") :]))
        elif line.strip() and not line.startswith(COMMENTS):
            raise Misfit(f"a line is neither `file:` nor `old:` nor `new:`: {line.strip()[:60]}")

    def name_file(self, path):
        if self.old is not None:
            raise Misfit("an `old:` line has no `new:` line after it")
        if not path.startswith(FOLDERS) or os.path.normpath(path) != path:
            raise Misfit(f"`file:` names no file below {', '.join(FOLDERS)}: {path}")
        if not os.path.isfile(os.path.join(self.folder, path)):
            raise Misfit(f"there is no file {path}")
        if path not in self.texts:
            self.texts[path] = self.before[path] = contents(os.path.join(self.folder, path))
        self.path = path

    def replace(self, new):
        if not self.path or not self.old:
            raise Misfit("a `new:` line has no `file:` and no `old:` line before it")
        count = self.texts[self.path].count(self.old)
        if count != 1:
            raise Misfit(f"an `old:` text is {count} times in {self.path}, and not once: {self.old.strip()[:80]}")
        self.texts[self.path] = self.texts[self.path].replace(self.old, new)
        self.old, self.pairs = None, self.pairs + 1

    def end(self):
        if self.old is not None:
            raise Misfit("an `old:` line has no `new:` line after it")
        if not self.pairs:
            raise Misfit("it has no pair of lines `old:` and `new:`")
        if self.texts == self.before:
            raise Misfit("it changes nothing")


def texts_of(top, crate, tier, name):
    """Returns the texts of the files that an edit changes, by their paths in the crate, as it leaves them, or says why it does not fit."""
    folder = os.path.join(top, "crates", crate)
    edit = Edit(folder)
    try:
        for line in contents(os.path.join(folder, tier, name)).split("\n"):
            edit.read(line)
        edit.end()
    except (OSError, UnicodeDecodeError) as error:
        raise Misfit(f"it, or a file that it names, cannot be read: {error}") from error
    return edit.texts
