"""A script that grows, and the answers to it so far."""
import subprocess


class Fault(Exception):
    """A transcript that isn't as it should be."""


def ask(program, words, text):
    """With which status the program ends on these words and this input, and what it puts."""
    done = subprocess.run([program, *words], input=text.encode(), capture_output=True, timeout=600)
    return done.returncode, done.stdout.decode()


class Player:
    """Has the lines of a script, and the answers of the program by the number of their line."""

    def __init__(self, program, sizes):
        self.program = program
        self.nodes = sizes[0]
        told = sizes[:1] if len(set(sizes)) == 1 else sizes
        self.lines = ["set " + " ".join(str(size) for size in told)]
        self.transcript = ""
        self.answers = {}

    def script(self):
        return "\n".join(self.lines) + "\n"

    def run(self):
        done = subprocess.run([self.program, "run"], input=self.script().encode(), capture_output=True, timeout=600)
        told = done.stdout.decode()
        if done.returncode != 0:
            raise Fault(f"status {done.returncode}: {told[-200:]} {done.stderr.decode()[-300:]}")
        if not told.startswith(self.transcript):
            raise Fault("the same lines are answered otherwise")
        for line in told[len(self.transcript) :].splitlines():
            if line.startswith("  "):
                self.answers[number] += "\n" + line[2:]
            else:
                number, text = line.split(": ", 1)
                number = int(number)
                self.answers[number] = text
        self.transcript = told
        if sorted(self.answers) != list(range(2, len(self.lines) + 1)):
            raise Fault("not one answer a command")

    def last_answer(self, line):
        """The answer to the last line that reads so."""
        for number in range(len(self.lines), 1, -1):
            if self.lines[number - 1] == line:
                return self.answers[number]
