"""How a run ends: by its words, where its input can't be read, and where a script's last line has no end."""
from __future__ import annotations

import os
from functools import partial
from typing import Iterator, List

from .folder import EXAMPLES, table
from .playing import CHECK, READ_FAULT, RUN, TRACE, WRONG_WORDS, Program, Task, expect

#: Words that ask for nothing: too few, too many, other ones, and numbers that are too long or out of range.
ASK_NOTHING = """
run x
trace x
watch t start
chaos 1 0
chaos 1 0 1 1
chaos 18446744073709551616 0 1
chaos 000000000000000000001 0 1
chaos 1 5001 1
chaos 1 0 51
chaos 1 1001 50
chaos 1 5000 11
chaos 1 0 0"""

USAGE = (
    "usage: replset run | replset chaos SEED EVENTS NODES | replset sync NODE | replset linear NODE COLL ID"
    " | replset watch COLL TOKEN NODE... | replset trace | replset check\n"
)

#: Scripts that no file shows as well, each with its transcript.
SCRIPTS = {
    "set 2\ncampaign n0\ndeliver m0\ndeliver m1\n": "2: candidate 1 sent m0 1\n3: replied m1\n4: won 1\n",
    "set 1\npar\nthread\ncampaign n0\nend\ndrain n0": "4: won 1\n6: primary 1 noop 1/0/1\n",
}


def tasks() -> Iterator[Task]:
    """Each ending."""
    for script, transcript in SCRIPTS.items():
        yield Task(f"the script {script!r}", partial(is_answered, script, transcript))
    for line in ASK_NOTHING.split("\n"):
        yield Task(f"the words {line!r}", partial(asks_nothing, line.split()))
    yield Task("an input that can't be read", ends_where_nothing_can_be_read)


def is_answered(script: str, transcript: str, program: Program) -> None:
    expect(program.ask(RUN, script), 0, transcript)


def asks_nothing(words: List[str], program: Program) -> None:
    expect(program.ask(words, "set 1\n"), WRONG_WORDS, USAGE)


def ends_where_nothing_can_be_read(program: Program) -> None:
    """A folder can be opened and not read. A generated script doesn't ask for it."""
    folder = os.open(EXAMPLES, os.O_RDONLY)
    try:
        for words in (RUN, TRACE, CHECK, ["sync", "n0"]):
            expect(program.ask_from(words, folder), READ_FAULT, "")
        row = next(table("summaries"))
        expect(program.ask_from(row.heading.split(" "), folder), 0, row.text)
    finally:
        os.close(folder)
