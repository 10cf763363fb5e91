"""Runs the scripts of a table, each with an `ok` or `FAILED` line; for tools/check and tools/ask."""
import concurrent.futures
import os
import subprocess
import sys
import time

TOP = os.path.dirname(os.path.dirname(os.path.dirname(os.path.realpath(__file__))))


def words_of(row):
    """The words of a command whose first is the name of a script: in tools/lib, in tools, or at the top with its folder."""
    name, *arguments = row.split()
    places = [os.path.join(TOP, "tools", "lib", name), os.path.join(TOP, "tools", name), os.path.join(TOP, name)]
    return [next(it for it in places if os.path.isfile(it)), *arguments]


def run(row):
    """Runs a command, and returns its status, what it wrote and its seconds."""
    began = time.monotonic()
    ran = subprocess.run(words_of(row), stdin=subprocess.DEVNULL, stdout=subprocess.PIPE, stderr=subprocess.STDOUT, text=True, errors="replace")
    return ran.returncode, ran.stdout, time.monotonic() - began


def run_table(rows, at_once):
    """Runs all commands, so many side by side, prints a line for each and what a failing one wrote, and returns 1 if one failed."""
    status = 0
    with concurrent.futures.ThreadPoolExecutor(at_once) as pool:
        for row, (code, written, seconds) in zip(rows, pool.map(run, rows)):
            print(f"{'FAILED' if code else 'ok':6} {seconds:6.1f} s  {row}", flush=True)
            if code:
                status = 1
                print("".join(f"    {line}\n" for line in written.splitlines()), end="", flush=True)
    return status


def main(usage, rows, words, at_once):
    """Runs the whole table, or only the script that the words begin with, with the arguments that follow, in the place of this one."""
    if not words:
        return run_table(rows, at_once)
    if words[0] not in {row.split()[0] for row in rows}:
        names = " ".join(dict.fromkeys(row.split()[0] for row in rows))
        sys.exit(f"{usage.strip()}\n\nA NAME is one of: {names}")
    command = words_of(words[0])
    os.execv(command[0], [*command, *words[1:]])
