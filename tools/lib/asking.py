"""Asks the program questions: each when it comes, or all of them in one call of the launcher.

A question is a row of words and a text, and has a function that is given the answer: the output, the status, and the message without hints.
"""
import os
import re
import subprocess
import sys
import tempfile

from hints import without_hints


def message_of(text):
    """The message as it is compared. Words are given in any mix of cases."""
    return re.sub(r"(?<=, )\w+(?=, is no gate)", lambda name: name[0].upper(), without_hints(text))


class OneByOne:
    """Asks a program that is there."""

    def __init__(self, program):
        self.program = program

    def ask(self, words, text, then):
        ran = subprocess.run([self.program, *words], input=text.encode(), capture_output=True, timeout=600, check=False)
        then((ran.stdout.decode(), ran.returncode, message_of(ran.stderr.decode())))

    def finish(self):
        pass


class AllAtOnce:
    """Keeps the questions, and asks them of a program that the launcher compiles without its proof."""

    ANSWER = re.compile(r"^== (\d+): (?:status (\d+)|no answer)\n(.*?)(?:^-- messages\n(.*?))?(?=^== |\Z)", re.M | re.S)

    def __init__(self, launcher):
        self.launcher, self.questions = launcher, []

    def ask(self, words, text, then):
        self.questions.append((words, text, then))

    def launched(self, folder):
        """What the launcher writes, which is told if it is no longer waited for."""
        launcher = subprocess.Popen([self.launcher, "--unproved", "--cases", folder], stdout=subprocess.PIPE, text=True)
        try:
            output, _ = launcher.communicate()
        except KeyboardInterrupt:
            launcher.terminate()
            launcher.wait()
            raise
        if launcher.returncode:
            sys.exit("the launcher has no answers")
        return output

    def finish(self):
        with tempfile.TemporaryDirectory() as folder:
            for number, (words, text, _) in enumerate(self.questions):
                for name, content in ((f"{number:06}", text), (f"{number:06}.args", "".join(f"{word}\n" for word in words))):
                    with open(os.path.join(folder, name), "w", encoding="utf-8") as file:
                        file.write(content)
            output = self.launched(folder)
        # The last line counts the questions.
        answers = output[: output.rindex("\n", 0, -1) + 1]
        # The launcher asks the files of a folder in an order of its own.
        found = {int(m[1]): (m[3], int(m[2]), message_of(m[4] or "")) for m in self.ANSWER.finditer(answers)}
        assert found.keys() == set(range(len(self.questions)))
        for number, (_, _, then) in enumerate(self.questions):
            then(found[number])
