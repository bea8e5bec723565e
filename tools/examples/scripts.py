"""Each script with its transcript and its trace, what is asked after it; what is no script or no trace."""
from __future__ import annotations

from functools import partial
from typing import Iterator

from .blocks import block_names
from .folder import QUESTIONS, Question, Row, names, questions, read, table
from .playing import CHECK, NO_SCRIPT, NO_TRACE, REFUSED, RUN, TRACE, Program, Task, expect


def tasks() -> Iterator[Task]:
    """All that stands written in the folder but blocks."""
    for name in sorted(set(names()) - set(block_names())):
        yield Task(name, partial(is_answered, name))
    for name in names("trace"):
        yield Task(f"the trace of {name}", partial(is_traced, name))
    for ending, what in QUESTIONS.items():
        for name in names(ending):
            for question in questions(name, ending):
                asked = f"{what} after {name}, {' '.join(question.words)}"
                yield Task(asked, partial(is_told, name, question))
    for row in table("refused"):
        yield Task(f"a script that is refused with {row.heading}", partial(is_refused, row))
    for row in table("checked"):
        yield Task(f"an input that is checked, {row.heading}", partial(is_checked, row))


def is_answered(name: str, program: Program) -> None:
    """A script has its transcript. What is no script has the line that is at fault."""
    written = read(name, "out")
    expect(program.ask(RUN, read(name, "replset")), NO_SCRIPT if written.startswith("line ") else 0, written)


def is_traced(name: str, program: Program) -> None:
    expect(program.ask(TRACE, read(name, "replset")), 0, read(name, "trace"))


def is_told(name: str, question: Question, program: Program) -> None:
    """The lines stand after the transcript. A refusal ends the run with a status of its own."""
    status = REFUSED if " refused " in question.lines else 0
    expect(program.ask(question.words, read(name, "replset")), status, read(name, "out") + question.lines)


def is_refused(row: Row, program: Program) -> None:
    expect(program.ask(RUN, row.text), NO_SCRIPT, row.heading + "\n")


def is_checked(row: Row, program: Program) -> None:
    status = 0 if row.heading.startswith("yes ") else NO_TRACE
    expect(program.ask(CHECK, row.text), status, row.heading + "\n")
