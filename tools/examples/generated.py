"""Generated scripts, by their summaries. Those with events were found by a simulator that is not here."""
from __future__ import annotations

from functools import partial
from typing import Iterator

from .folder import Row, table
from .playing import Program, Task, expect, hold
from .programs import printer_of_scripts

#: How the replies begin that a line of a summary counts.
COUNTED = {
    "events": "",
    "written": "written ",
    "won": "won ",
    "rolled back": "rolled back to ",
    "refused": "refused ",
}


def tasks() -> Iterator[Task]:
    """Each row of the table."""
    printer = printer_of_scripts()
    for row in table("summaries"):
        yield Task(row.heading, partial(is_summed_up, row))
        if printer:
            yield Task(f"the script of {row.heading}", partial(is_played, row, Program(printer)))


def is_summed_up(row: Row, program: Program) -> None:
    """The words put the summary, each time that they are asked."""
    for _ in range(2):
        expect(program.ask(row.heading.split(" ")), 0, row.text)


def is_played(row: Row, printer: Program, program: Program) -> None:
    """The script that is printed for the words is answered as the summary counts."""
    script = printer.ask(row.heading.split(" ")[1:])
    hold(script.status == 0, f"it isn't printed: {script.put[:80]!r}")
    replies = program.replies(script.put)
    for line in row.text.splitlines():
        what, _, count = line.rpartition(" ")
        if what in COUNTED:
            found = sum(reply.text.startswith(COUNTED[what]) for reply in replies)
            hold(found == int(count), f"{what} {found}, where the summary has {count}")
