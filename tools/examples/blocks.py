"""Scripts with a block, whose lines are done in another order each time; what is the same in every order."""
from __future__ import annotations

from functools import partial
from typing import Dict, Iterator, List, NamedTuple

from lab.transcript import Reply, read_transcript

from .folder import read, table
from .playing import SHOWN, Program, Task, hold, said

#: Each script is run so often.
RUNS = 20


class Block(NamedTuple):
    """A row of the table: how many writes a script does, how many of its last replies are as written, and
    what its reads may tell, the oldest first."""

    name: str
    written: int
    ending: int
    states: List[str]


def blocks() -> Iterator[Block]:
    """The blocks of the table."""
    for row in table("blocks"):
        name, _, written, _, ending = row.heading.split(" ")
        yield Block(name, int(written), int(ending), row.text.splitlines())


def block_names() -> List[str]:
    """The scripts with a block."""
    return [block.name for block in blocks()]


def tasks() -> Iterator[Task]:
    """Each script with a block."""
    for block in blocks():
        yield Task(f"{block.name}, in any order", partial(holds, block))


def holds(block: Block, program: Program) -> None:
    """Each run is one of the script's lines in some order, and what is the same in every order is so."""
    script = read(block.name, "replset")
    lines = script.split("\n")
    written = read_transcript(read(block.name, "out")).replies
    for _ in range(RUNS):
        told = program.replies(script)
        is_as_written(block, lines, written, told)
        is_merged(lines, told)
        never_goes_back(block, lines, told)
        writes_rise(block, told)
        is_a_run_of_its_order(lines, told, program)


def is_as_written(block: Block, lines: List[str], written: List[Reply], told: List[Reply]) -> None:
    """The replies before the block and the last ones are as written."""
    begin = lines.index("par")
    before = sum(reply.line <= begin for reply in written)
    after = len(written) - block.ending
    hold(len(told) == len(written), f"{len(told)} replies, of {len(written)}")
    for reply, other in [*zip(written[:before], told[:before]), *zip(written[after:], told[after:])]:
        hold(other == reply, f"line {reply.line} is answered {said(other)!r}, and not {said(reply)!r}")


def lists_of(lines: List[str]) -> Dict[int, int]:
    """For the number of each line of a block, from the first to the last, which list the line is of."""
    begin, lists, own = lines.index("par") + 1, {}, -1
    for number, line in enumerate(lines[begin:lines.index("end")], begin + 1):
        if line == "thread":
            own += 1
        elif line and not line.startswith("#"):
            lists[number] = own
    return lists


def is_merged(lines: List[str], told: List[Reply]) -> None:
    """Each line of the block is done once, and those of each list in their order."""
    lists = lists_of(lines)
    done = [reply.line for reply in told if reply.line in lists]
    in_order = sorted(done, key=lists.__getitem__) == list(lists)
    hold(in_order, f"the lines of the block are done in the order {str(done)[:SHOWN]}")


def never_goes_back(block: Block, lines: List[str], told: List[Reply]) -> None:
    """Each read tells one of the states, and none an older one after a newer one."""
    newest = 0
    for reply in told:
        if lines[reply.line - 1].startswith("read "):
            shown = f"line {reply.line} reads {said(reply)!r}"
            hold(said(reply) in block.states, f"{shown}, which the document never was")
            place = block.states.index(said(reply))
            hold(newest <= place, f"{shown}, after a newer one")
            newest = place


def writes_rise(block: Block, told: List[Reply]) -> None:
    """So many writes are done, each after the one before it in the log."""
    places = [int(reply.text.rpartition("/")[2]) for reply in told if reply.text.startswith("written 1/0/")]
    hold(len(places) == block.written, f"{len(places)} writes are done, of {block.written}")
    hold(all(place < later for place, later in zip([0, *places], places)), f"the writes are done at {places}")


def is_a_run_of_its_order(lines: List[str], told: List[Reply], program: Program) -> None:
    """The same lines without a block, in the order that the replies show, are answered so."""
    sizes = next(line for line in lines if line.startswith("set "))
    ordered = [sizes, *(lines[reply.line - 1] for reply in told)]
    alone = program.replies("\n".join(ordered) + "\n")
    hold(len(alone) == len(told), f"{len(told)} replies, and without a block {len(alone)}")
    for reply, other in zip(told, alone):
        answered = f"line {reply.line} is answered {said(reply)!r}"
        hold(said(reply) == said(other), f"{answered}, and without a block {said(other)!r}")
