"""The names that the files of crates define, and what is wrong with those that a document has in backticks; for tools/definitions.

`f: c` is a clause of a function or a field of a record, and so is each name after it, with commas between. Names after `R`: are fields of
the record R, or its constructors if it is no record. After "law" or "laws" come functions of a laws.rt: that of the crate in whose
section they are, or that "of" names. Names before "in" and a file are defined in that file. A path is that of a file. Every other name
is defined in some file, or is one of WORDS.
"""
import functools
import glob
import os
import re

from crates import TOP, read

# What no file defines: words of the language, of the command line and of texts, other programs, and what they define.
WORDS = set(
    "specification behaviour process where endproc endspec in exit noexit stop hide i f c "
    "rt gcc mandoc clap indexmap strsim thiserror itoa Box Option Result String Vec u64 usize".split()
)

TICKED = r"`[^`\n]+`"
SEVERAL = rf"{TICKED}(?:(?:, and |, | and ){TICKED})*"
NAME = re.compile(r"[A-Za-z_]\w*(?:::\w+)*$")
CLAUSE = re.compile(r"([A-Za-z_][\w:]*): (\w+)$")
FIELDS = re.compile(rf"`(\w+)`: ({SEVERAL})")
LAWS = re.compile(rf"\blaws? (?:are )?({SEVERAL})(?: of `(\w+)`)?")
IN_FILE = re.compile(rf"({SEVERAL})(?:, (?:both|all))? in `([\w/+]+\.(?:rt|antt))`")
PATH = re.compile(r"[\w.*+-]*(?:/[\w.*+-]*)+$|[\w.-]+\.(?:rt|antt|md|txt|py|edit)$")

# What a path may be named without: folders, and those whose inner folders may be left out too.
FLAT = [re.compile(it) for it in ("crates/", "docs/", "crates/[^/]+/", "crates/[^/]+/specs/")]
DEEP = [re.compile(it) for it in ("crates/[^/]+/src/", "crates/[^/]+/proofs/")]
BASES = FLAT + DEEP

# Of code: a function, the type or the trait that has it, and any other item.
FUNCTION = re.compile(r"^[ \t]*(?:pub(?:\(crate\))? )?fn (\w+)", re.M)
OWNER = re.compile(r"^(?:impl(?:<[^>]*>)?|(?:pub(?:\(crate\))? )?trait) (?:\w+ for )?(\w+).*?^}", re.M | re.S)
ITEM = re.compile(r"^[ \t]*(?:pub(?:\(crate\))? )?(?:struct|enum|trait|const|ghost) (\w+)|^    ([A-Z]\w*)(?: \{|\(|,|$)|^ +(?:pub )?(\w+): ", re.M)
# Of a theory: a type, and any other definition, a lemma, a field or a constructor.
TYPE = re.compile(r"\s*(?:pub )?(?:record|data) ([^\s:({]+)")
OTHER = re.compile(r"\s*(?:abbrev |unfoldable )?(?:pub )?([^\s:(){}|]+) :(?:\s|$)")


class Names:
    """Names by file, clauses by function and file, fields and constructors by type, and the functions of each laws.rt by crate."""

    def __init__(self):
        self.by_file, self.clauses, self.parts, self.laws = {}, {}, {}, {}
        for path in self.paths("src", "rt"):
            self.add_code(os.path.relpath(path, os.path.join(TOP, "crates")), re.sub(r"(^|\s)//.*", r"\1", read(path)))
        for path in self.paths("specs", "antt") + self.paths("proofs", "antt"):
            self.add_theory(os.path.relpath(path, os.path.join(TOP, "crates")), read(path).split("\n"))
        self.known = WORDS.union(*self.by_file.values())
        self.known |= {clause for files in self.clauses.values() for clauses in files.values() for clause in clauses}
        self.known |= {os.path.splitext(os.path.basename(file))[0] for file in self.by_file}
        self.known |= {os.path.basename(path) for folder in ("*", "crates/*") for path in glob.glob(os.path.join(TOP, folder))}

    @staticmethod
    def paths(part, end):
        return glob.glob(os.path.join(TOP, "crates", "*", part, "**", f"*.{end}"), recursive=True)

    def add_code(self, file, text):
        names = self.by_file.setdefault(file, {"".join(item) for item in ITEM.findall(text)})
        owners = [(head.start(), head.end(), head.group(1)) for head in OWNER.finditer(text)]
        functions = list(FUNCTION.finditer(text))
        for number, function in enumerate(functions):
            end = functions[number + 1].start() if number + 1 < len(functions) else len(text)
            clauses = set(re.findall(r"\b(?:ensures|requires)\*?\s+(\w+)\s*\{", text[function.end() : end]))
            owner = next((name for begun, ended, name in owners if begun < function.start() < ended), None)
            for name in (function.group(1), f"{owner}::{function.group(1)}"):
                names.add(name)
                self.clauses.setdefault(name, {}).setdefault(file, set()).update(clauses)
            if file.endswith("/laws.rt"):
                self.laws.setdefault(file.split("/")[0], set()).add(function.group(1))

    def add_theory(self, file, lines):
        names = self.by_file.setdefault(file, set())
        open_one, depth = None, 0
        for line in lines:
            if not line.strip() or line.lstrip().startswith(("--", "use ", "pub use ")):
                continue
            indent = len(line) - len(line.lstrip())
            open_one = open_one if indent > depth else None
            begun, other = TYPE.match(line), OTHER.match(line)
            if begun:
                open_one, depth = begun.group(1), indent
                names.add(open_one)
                self.parts.setdefault(open_one, set())
            elif other:
                names.add(other.group(1))
                if open_one:
                    self.parts[open_one].add(other.group(1))

    def in_file(self, name, file):
        """Whether a file defines a name, or has a function with such a clause."""
        clause = CLAUSE.match(name)
        return clause.group(2) in self.clauses.get(clause.group(1), {}).get(file, ()) if clause else name in self.by_file[file]

    def has_clause(self, owner, clause):
        return any(clause in own for own in self.clauses.get(owner, {}).values()) or clause in self.parts.get(owner, ())


def all_paths():
    """The paths of all files and folders that are no work of git or of rt."""
    for folder, inner, files in os.walk(TOP):
        inner[:] = [it for it in inner if it not in (".git", "out")]
        base = os.path.relpath(folder, TOP)
        yield from (os.path.normpath(os.path.join(base, it)) for it in [*inner, *files])


@functools.cache
def path_names():
    """The names of files and folders: their paths, and the ends of these below one of BASES."""
    paths = list(all_paths())
    return {*paths, *(path[end:] for path in paths for base in BASES for end in ends_of(base, path))}


def ends_of(base, path):
    """Where in a path that begins with a base the rest begins, also behind each further folder if it is a base with all folders below."""
    begun = base.match(path)
    if begun:
        yield begun.end()
        yield from (it.end() for it in re.finditer("/", path) if it.end() > begun.end() and base in DEEP)


def is_path(word):
    """Whether there is such a file or folder, by its path or, in a crate, by its end; capitals stand for any name."""
    word = re.sub(r"\b[A-Z]{3,}(?=/|$)", "*", word).rstrip("/")
    pattern = re.compile(re.escape(word).replace(r"\*\*/", "(?:.*/)?").replace(r"\*", "[^/]*"))
    return any(map(pattern.fullmatch, path_names())) if "*" in word else word in path_names()


def faults_of(names, document, column=None):
    """What is wrong with the names of a document, or of that column of its tables, and with its tables, each with the number of the line."""
    lines = read(os.path.join(TOP, "docs", document)).split("\n")
    crate, cells = None, 0
    for number, line in enumerate(lines, 1):
        if line.startswith("#"):
            section = re.match(r"#+ `(\w+)`$", line)
            crate = section.group(1) if section else None
        own = len(re.findall(r"(?<!\\)\|", line)) if line.startswith("|") else 0
        begins = own and not cells
        named = line if column is None else re.split(r"(?<!\\)\|", line)[column] if own else ""
        faults = list(faults_in(names, named, crate))
        if begins and not re.match(r"[|: -]+$", lines[number]):
            faults.append("a table begins without a head")
        elif cells and own and own != cells:
            faults.append("the table has another number of columns here")
        cells = own
        for fault in faults:
            yield f"docs/{document}:{number}: {fault}"


def faults_in(names, line, crate):
    placed = set()
    for several, file in IN_FILE.findall(line):
        file, owner = file.removeprefix("crates/"), None
        if file not in names.by_file:
            continue
        for name in re.findall(r"`([^`]+)`", several):
            owner = CLAUSE.match(name).group(1) if CLAUSE.match(name) else owner
            placed.add(name)
            if not names.in_file(name, file) and not (owner and names.in_file(f"{owner}: {name}", file)):
                yield f"{file} has no {name}"
    for several, other in LAWS.findall(line):
        laws = names.laws.get(other or crate) or set().union(*names.laws.values())
        for name in re.findall(r"`(\w+)(?:: \w+)?`", several):
            if name not in laws and not any(names.has_clause(law, name) for law in laws):
                yield f"{other or crate or 'no crate'} has no law {name}"
    for owner, several in FIELDS.findall(line):
        for name in re.findall(r"`(\w+)`", several):
            if owner in names.parts and name not in names.parts[owner]:
                yield f"{owner} has no field {name}"
    for several in re.findall(SEVERAL, line):
        owner = None
        for name in re.findall(r"`([^`]+)`", several):
            clause = CLAUSE.match(name)
            owner, name = clause.groups() if clause else (owner, name)
            if owner and owner not in WORDS and not names.has_clause(owner, name) and (clause or name not in names.clauses):
                yield f"{owner} has no clause {name}"
    for word in re.findall(r"`([^`]+)`", line):
        if PATH.match(word):
            if not is_path(word):
                yield f"there is no file {word}"
        elif NAME.match(word) and word not in placed and not ({word, word.split("::")[-1]} & names.known):
            yield f"nothing is named {word}"
