"""Large blocks, on one document and on many, whose lists run side by side."""
from __future__ import annotations

from typing import Iterator, List

from .blocks import is_a_run_of_its_order, is_merged, lists_of
from .playing import Fault, Program, Task

#: How many lists a large block has, and how many lines each. So many take longer than a thread is left alone
#: on one processor.
LISTS, LINES = 16, 2000

#: What stands before a large block.
OPENING = ["set 1", "campaign n0", "drain n0", "insert n0 t {_id: 0, n: 0}"]

#: So often it is tried whether lists run side by side, which on a busy machine they may not at once.
TRIES = 5


def tasks() -> Iterator[Task]:
    """Large blocks, on one document and on many."""
    yield Task("large blocks", run_side_by_side)


def run_side_by_side(program: Program) -> None:
    """Each run of a large block is one of its lines in the order that it shows; and one goes from list to
    list more often than one whole list after another does."""
    for _ in range(TRIES):
        if max([stretches(is_one, program) for is_one in (True, False)]) > LISTS:
            return
    raise Fault("no run of a large block goes from list to list")


def stretches(is_one: bool, program: Program) -> int:
    """How many stretches of lines of the same list a run of a large block has."""
    lines = large(is_one)
    told = program.replies("\n".join(lines) + "\n")
    is_merged(lines, told)
    is_a_run_of_its_order(lines, told, program)
    lists = lists_of(lines)
    order = [lists[reply.line] for reply in told if reply.line in lists]
    return 1 + sum(own != other for own, other in zip(order, order[1:]))


def large(is_one: bool) -> List[str]:
    """A block of inserts, or of updates of one document."""
    lines = [*OPENING, "par"]
    for own in range(LISTS):
        first = own * LINES + 1
        inserts = [f"insert n0 t {{_id: {key}}}" for key in range(first, first + LINES)]
        lines += ["thread", *(["update n0 t 0 {$inc: {n: 1}}"] * LINES if is_one else inserts)]
    return [*lines, "end"]
