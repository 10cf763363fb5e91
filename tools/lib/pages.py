"""Pages that tools make of the files, or tables in them: with --write they are written, otherwise compared."""
import os
import re
import sys

from crates import TOP, read


def cell(text):
    """A text as it stands in a table."""
    return text.replace("|", "\\|")


def kept(tool, page, made):
    """Keeps a page by the words of the command line: writes it, or says that it is not what the tool makes. Returns the faults."""
    path = os.path.join(TOP, page)
    if sys.argv[1:] not in ([], ["--write"]):
        sys.exit(f"usage: tools/{tool} [--write]")
    if sys.argv[1:]:
        with open(path, "w", encoding="utf-8") as document:
            document.write(made)
    elif not os.path.isfile(path) or read(path) != made:
        return [f"{page} is not what the files say; tools/{tool} --write makes it"]
    return []


def with_table(tool, page, table):
    """The page with this table after the line that marks its place, up to the first line that is no row."""
    text, mark = read(os.path.join(TOP, page)), f"<!-- made by tools/{tool} --write -->\n"
    if text.count(mark) != 1:
        sys.exit(f"{tool}: {page} has no one place for the table")
    before, after = text.split(mark)
    return before + mark + table + after[re.match(r"(?:\|.*\n)*", after).end() :]


def reported(tool, made, faults):
    """Prints the faults and what was made, and returns the status."""
    for fault in faults:
        print(f"{tool}: {fault}")
    print(f"{tool}: {made}, {len(faults)} faults")
    return 1 if faults else 0
