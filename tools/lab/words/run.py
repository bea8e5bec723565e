"""`lab run`: a script beside its replies."""
from __future__ import annotations

import argparse
import sys
from typing import Dict, List

from ..diagnose import surprises
from ..expand import read_expanded
from ..observe import observe
from ..show import beside
from ..telling import what_happened

SUMMARY = "plays a script and prints each line beside its reply"
DETAILS = """\
A short script is shown as the plain one that it comes to, each macro as a comment; in front of each line stands the number
of the file's line that it came from. Where a macro can't go on, what it did is shown up to there. With --state each line is
followed by what it changed at which node, such as

    · n0: Primary→Secondary, term 1→2

which the replies alone don't show: a delivery that makes a node step down answers 'replied mK' or 'ignored ..'.

What is no fault and may still not be meant, as a misspelt field of a configuration, is told on standard error.

Then comes what happened to the data: what became of each write, and the verdicts ('lab verdict --help' names them)."""


def add_arguments(parser: argparse.ArgumentParser) -> None:
    """The word's arguments."""
    parser.add_argument("file", metavar="FILE", help="a script, short or plain; - for standard input")
    parser.add_argument("--state", action="store_true", help="tell what each line changed at which node")


def main(arguments: argparse.Namespace) -> int:
    """Prints the run."""
    script = read_expanded(arguments.file)
    lines = script.lines
    transcript = script.play()
    for number, what in surprises(lines):
        print(f"lab: line {script.number(number)}: {what}", file=sys.stderr)
    notes: Dict[int, List[str]] = {}
    if arguments.state:
        for step in observe(lines).steps:
            change = step.told_change()
            if change:
                notes.setdefault(step.line, []).append(change)
    print("\n".join([*beside(lines, transcript, notes, script.source if script.short else None), "", *what_happened(script)]))
    return 0
