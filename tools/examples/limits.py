"""Scripts at the limits, which are made here: the largest document, too many lines and bytes, two batches."""
from __future__ import annotations

from functools import partial
from typing import Iterator

from .playing import CHECK, NO_SCRIPT, NO_TRACE, RUN, TOO_LARGE, Fault, Program, Task, expect

#: `{_id: 1, s: STRING}` has 22 bytes more than its string, and may have 262,144.
LONGEST_STRING = 262_122

LONGEST_LINE, MOST_LINES = 1_048_576, 200_000

#: So many bytes a script and a trace may have.
LARGEST_SCRIPT, LARGEST_TRACE = 8_388_608, 67_108_864

LEADER = "set 1\ncampaign n0\ndrain n0\n"


def tasks() -> Iterator[Task]:
    """Each limit."""
    yield Task("the largest document", stores_the_largest_document)
    for opening, ending in ((THREE, THREE_ENDS), (ONE, ONE_ENDS)):
        for workers in (1, 16):
            what = f"more than a batch, in a {opening[:5]} with {workers} workers"
            yield Task(what, partial(comes_in_batches, opening, ending, workers))
    yield Task("scripts over the limits", refuses_what_is_over_the_limits)
    yield Task("too many bytes", reads_no_byte_too_many)


def stores_the_largest_document(program: Program) -> None:
    """The largest string that fits a document is stored, and one letter more is refused."""
    opened = "2: won 1\n3: primary 1 noop 1/0/1\n"
    for more, reply in (("", "written 1/0/2"), ("s", "refused 9 DocTooLarge")):
        script = f'{LEADER}insert n0 t {{_id: 1, s: "{"s" * LONGEST_STRING}{more}"}}\n'
        expect(program.ask(RUN, script), 0, f"{opened}4: {reply}\n")


def refuses_what_is_over_the_limits(program: Program) -> None:
    """A line that isn't UTF-8, a line of a byte too many, and a line too many."""
    for given, fault in (
        ("\udcff", "line 2: NotUtf8"),
        ("x" * (LONGEST_LINE + 1), "line 2: LineTooLong"),
        ("\n" * MOST_LINES, f"line {MOST_LINES + 1}: TooManyLines"),
    ):
        expect(program.ask(RUN, "set 1\n" + given), NO_SCRIPT, fault + "\n")


def reads_no_byte_too_many(program: Program) -> None:
    """As many bytes as may be are read, and are no script and no trace; one more ends the run."""
    for words, most, status, fault in (
        (RUN, LARGEST_SCRIPT, NO_SCRIPT, "line 1: LineTooLong\n"),
        (CHECK, LARGEST_TRACE, NO_TRACE, "line 1: BadHeader\n"),
    ):
        expect(program.ask(words, "#" * most), status, fault)
        expect(program.ask(words, "#" * (most + 1)), TOO_LARGE, "")


# ---- more than a batch

#: The documents have the `_id`s from 1 up to before this one, and the first of them is updated so often.
PAST, UPDATED = 4_701, 300

#: Node 1 fetches from node 0 what comes next.
FETCH = "heartbeat n0 n1\ndeliver n0 n1\nfetch n1\ndeliver n1 n0\ndeliver n0 n1\n"

#: Node 0 leads, with the no-op of its term, a set of three members, and one of one with a node beside it.
THREE = "set 3\ncampaign n0\ndeliver m0\ndeliver m2\ndrain n0\n"
ONE = "set 2 1\ncampaign n0\ndrain n0\n"

#: How their transcripts end, from the first answer that is taken.
THREE_ENDS = """\
5010: took 5000 last 1/0/5000
5011: sent m7
5012: replied m8
5013: sent m9 to n0
5014: replied m10
5015: took 1 last 1/0/5001
5016: applied 5000 to 1/0/5000
5017: applied 1 to 1/0/5001
5018: found {_id: 1, n: 300}
"""
ONE_ENDS = """\
5008: took 5000 last 1/0/5000
5009: sent m4
5010: replied m5
5011: sent m6 to n0
5012: replied m7
5013: took 1 last 1/0/5001
5014: applied 5000 to 1/0/5000
5015: applied 1 to 1/0/5001
5016: found {_id: 1, n: 300}
"""


def comes_in_batches(opening: str, ending: str, workers: int, program: Program) -> None:
    """The primary writes 5,000 entries after its no-op; node 1 fetches and applies them in two batches."""
    lines = [f"insert n0 t {{_id: {key}, n: 0}}\n" for key in range(1, PAST)]
    lines += ["update n0 t 1 {$inc: {n: 1}}\n"] * UPDATED
    batches = f"apply n1 {workers}\napply n1 {workers}\nread n1 local t 1\n"
    ended = program.ask(RUN, f"{opening}{''.join(lines)}{FETCH}{FETCH}{batches}")
    if ended.status != 0 or not ended.put.endswith(ending):
        raise Fault(f"it ends with status {ended.status} and {ended.put[-len(ending):]!r}")
