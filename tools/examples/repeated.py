"""Messages that come again and again, and change nothing."""
from __future__ import annotations

from functools import partial
from typing import Iterator

from .folder import Row, table
from .playing import Program, Task, hold, said

#: Each message comes so often.
TIMES = 2_000


def tasks() -> Iterator[Task]:
    """Each message of the table."""
    for row in table("repeated"):
        yield Task(f"a message that comes again, {row.heading}", partial(changes_nothing, row))


def changes_nothing(row: Row, program: Program) -> None:
    """A heading names a message, the node that it goes to and the answer to its first delivery."""
    message, node, answer = row.heading.split(" ", 2)
    replies = program.replies(row.text + f"deliver {message}\nstate {node}\n" * TIMES)
    replies = replies[row.text.count("\n") - 1:]
    hold(len(replies) == 2 * TIMES, f"{len(replies)} replies, of {2 * TIMES}")
    hold(said(replies[0]) == answer, f"the first delivery is answered {said(replies[0])!r}")
    first = said(replies[1])
    hold(first.startswith("state "), f"the node shows {first!r}")
    for reply in replies[3::2]:
        hold(said(reply) == first, f"line {reply.line} shows {said(reply)!r}, and not {first!r}")
