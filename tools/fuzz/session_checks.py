#!/usr/bin/env python3
"""What a user may hold against the answers to writes of sessions: that no log has one of them twice.

usage: tools/fuzz/session_checks.py SCRIPT TRANSCRIPT

A log doesn't print the sessions of its entries, but each of these was written by a `retry`, whose answer told its optime.
So the transcript says which entry is which write, and with that: one optime is one write; along each log that is shown the
numbers of a session rise, and none stands twice; a log has what was answered there, until a crash or a rollback may take it;
a write that a log has is answered with its optime there, and never done again; and it is refused as old only where a later
write of its session was answered before.
Prints what is wrong, and ends with 1 where something is.
"""
import re
import sys

# What is refused before the session is looked at.
UNTOLD = ("NodeDown", "NotPrimary")


class SessionChecks:
    """Goes over the lines and answers of a script in their order. `fault` takes a text, and `count` the name of what was met."""

    def __init__(self, fault, count):
        self.fault = fault
        self.count = count
        self.writes = {}  # of each optime that was answered, the session and number of its write, or None
        self.logs = {}  # of each node what its log has for sure: of each session its numbers with their optimes

    def line(self, words, node, told):
        """A line's words, the node that acts or receives as far as it is known, and the words that are answered."""
        if words[0] == "retry":
            self.retried((int(words[2]), int(words[3])), node, told)
        elif told[0] in ("written", "committed"):
            self.written(told[1], None)
        elif told[0] == "primary":
            self.written(told[3], None)
        if told[0] in ("down", "rolled") or told[2:3] == ["DiskFailed"]:
            if node is None:
                self.logs.clear()
            self.logs.pop(node, None)

    def written(self, at, write):
        if self.writes.setdefault(at, write) != write:
            self.fault(f"at {at} stands {self.writes[at]}")

    def retried(self, write, node, told):
        session, number = write
        has = self.logs.setdefault(node, {}).setdefault(session, {})
        if told[0] == "written":
            self.count("retried, and told again" if told[1] in self.writes else "retried, and written")
            self.written(told[1], write)
            if has.setdefault(number, told[1]) != told[1]:
                self.fault(f"this write stood at {has[number]}")
        elif told[2:3] == ["OldNumber"]:
            last = int(told[3])
            if last <= number or (session, last) not in self.writes.values():
                self.fault("there was no later write of this session")
            number = last
        elif told[2:3] and told[2] in UNTOLD:
            return
        elif number in has:
            self.fault(f"this write stood at {has[number]}")
        if max(has, default=0) > number:
            self.fault(f"the log had the write {max(has)} of this session")

    def log(self, node, optimes):
        """The optimes of a log that is shown."""
        for session, numbers in self.logs.get(node, {}).items():
            for number, at in numbers.items():
                if at not in optimes:
                    self.fault(f"the log is without {at}, which is the write {number} of session {session}")
        has = {}
        for at in optimes:
            write = self.writes.get(at)
            if write is None:
                continue
            session, number = write
            numbers = has.setdefault(session, {})
            if max(numbers, default=0) >= number:
                self.fault(f"the log has the write {number} of session {session} after {max(numbers)}")
            numbers[number] = at
        self.logs[node] = has


def answers(transcript):
    """The answers of a transcript by their lines, each with its further lines."""
    found, number = {}, 0
    for line in transcript.splitlines():
        begins = re.match(r"(\d+): (.*)", line)
        if begins:
            number = int(begins[1])
            found[number] = [begins[2]]
        elif number:
            found[number].append(line.strip())
    return found


def receiver(words):
    """Who acts or receives; none where a message is named by its number."""
    word = words[1] if words[0] != "deliver" else words[-1]
    return int(word[1:]) if word[0] == "n" else None


def main():
    if len(sys.argv) != 3:
        sys.exit(__doc__)
    with open(sys.argv[1]) as script, open(sys.argv[2]) as transcript:
        lines, told = script.read().splitlines(), answers(transcript.read())
    faults, place = [], ""
    checks = SessionChecks(lambda text: faults.append(f"{place}: {text}"), lambda name: None)
    for number in told:  # in the order of the events, also within a block
        words, answer = lines[number - 1].split(" "), told[number]
        place = f"line {number} `{lines[number - 1]}` answers `{answer[0]}`"
        node = receiver(words)
        checks.line(words, node, answer[0].split(" "))
        if words[0] == "log" and answer[0].startswith("entries"):
            checks.log(node, [entry.split(" ")[0] for entry in answer[1:]])
    print("\n".join(faults) if faults else "each write of a session stands once")
    sys.exit(1 if faults else 0)


if __name__ == "__main__":
    main()
