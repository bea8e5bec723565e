"""`lab sweep`: scripts made by chance, over many seeds."""
from __future__ import annotations

import argparse
import os
import re
import sys
from collections import Counter
from typing import Dict, List, NamedTuple, Optional, Tuple

from ..chance import script_of_seed
from ..errors import FAILED, FILE, INTERRUPT, WORDS, LabError
from ..inside import played
from ..program import run_program, script_bytes
from ..script import read_lines
from ..show import Progress
from ..state import optime, read_state
from ..telling import names_of
from ..totals import Totals, read_totals
from ..verdicts import MEANINGS
from ..workers import in_order

SUMMARY = "plays scripts made by chance over many seeds, and tells what they came to"
DETAILS = """\
For each seed 'replset chaos SEED EVENTS NODES' is played. Told are the spread of what its summary counts, how many seeds
moved a commit point, the seeds that stand out, and how many have each verdict ('lab verdict --help' names them; in these
scripts nobody reads or asks for an acknowledgement); 'lab seed' prints the script of one. A seed always gives the same
script, so the same sweep always tells the same. With --verdict NAME only the seeds with that verdict are told.

So that many machines can share a sweep, --part K/N does the K-th of N parts of the seeds and prints one line, and --join
tells what such lines come to together:

    seq 400 | parallel 'lab sweep --seeds 1-1000000 --part {}/400 > part-{}'
    sbatch --array=1-400 -o part-%%a --wrap 'lab sweep --seeds 1-1000000 --part $SLURM_ARRAY_TASK_ID/400'
    lab sweep --join part-*

An interrupt keeps what was found till then."""


def add_arguments(parser: argparse.ArgumentParser) -> None:
    """The word's arguments."""
    parser.add_argument("--seeds", metavar="FROM-TO", type=_seed_range, default=(1, 1000), help="the seeds (1-1000)")
    parser.add_argument("--events", metavar="N", type=int, default=500, help="events of a script, up to 5000 (500)")
    parser.add_argument("--nodes", metavar="N", type=int, default=3, help="nodes of the set, 1 to 50 (3)")
    verdict = parser.add_mutually_exclusive_group()
    verdict.add_argument("--verdict", metavar="NAME", choices=list(MEANINGS), help="tell the seeds with this verdict alone")
    verdict.add_argument("--no-verdicts", action="store_true", help="look for no verdicts, which is many times as fast")
    parser.add_argument("--part", metavar="K/N", type=_part, help="do the K-th of N parts, and print a line for --join")
    parser.add_argument("--join", metavar="FILE", nargs="+", help="tell what the lines of --part come to; nothing is played")
    parser.add_argument("-j", dest="jobs", metavar="N", type=int, default=os.cpu_count() or 1,
                        help="how many are played at a time (as many as there are processors)")


def _seed_range(text: str) -> Tuple[int, int]:
    found = re.fullmatch(r"(\d{1,19})(?:-(\d{1,19}))?", text)
    first, last = (int(found[1]), int(found[2] or found[1])) if found else (1, 0)
    if first > last:
        raise argparse.ArgumentTypeError(f"'{text}' are no seeds such as 1-1000")
    return first, last


def _part(text: str) -> Tuple[int, int]:
    found = re.fullmatch(r"(\d{1,9})/(\d{1,9})", text)
    if not found or not 1 <= int(found[1]) <= int(found[2]):
        raise argparse.ArgumentTypeError(f"'{text}' is no part such as 3/10")
    return int(found[1]), int(found[2])


#: A reply of a transcript, and what a summary counts by the first word of one.
_REPLY = re.compile(rb"^[0-9]+: ([a-z]+)(.*)$", re.MULTILINE)
_COUNTED = (("written", b"written"), ("won", b"won"), ("rolled back", b"rolled"), ("refused", b"refused"))


class Summary(NamedTuple):
    """What one seed came to."""

    counts: Dict[str, int]
    commit: str
    down: bool
    verdicts: List[str]


def _summary(text: str, verdicts: List[str]) -> Summary:
    """What the program says of a seed."""
    counts: Dict[str, int] = {}
    commits, down = ["0/0/0"], False
    for line in text.splitlines():
        node = re.match(r"n\d+ (?:(down)|last \S+ commit (\S+))$", line)
        if node:
            down = down or node[1] is not None
            commits += [node[2]] if node[2] else []
        else:
            name, count = line.rsplit(" ", 1)
            counts[name] = int(count)
    return Summary(counts, max(commits, key=optime), down, verdicts)


def _by_program(seed: int, events: int, nodes: int) -> str:
    """What the program says of a seed, for which it makes the script by itself."""
    done = run_program(["chaos", str(seed), str(events), str(nodes)])
    if done.returncode != 0:
        raise LabError(FAILED, f"seed {seed} ended with status {done.returncode}")
    return done.stdout.decode()


def _inside(lines: List[str], nodes: int) -> Optional[str]:
    """The same of a seed's script that is played inside of this process, or nothing where it can't be."""
    asked = [f"state n{node}" for node in range(nodes)]
    told = played(script_bytes([*lines, *asked]))
    if told is None:
        return None
    replies = _REPLY.findall(told.text)
    heads = Counter(head for head, _ in replies[: len(replies) - nodes])
    states = [read_state((head + rest).decode()) for head, rest in replies[len(replies) - nodes :]]
    counts = [f"events {len(lines) - 1}", *(f"{name} {heads[head]}" for name, head in _COUNTED)]
    ends = ["down" if state.down else f"last {state.last} commit {state.commit}" for state in states]
    return "\n".join([*counts, *(f"n{node} {end}" for node, end in enumerate(ends))])


def _seeds(bounds: Tuple[int, int], part: Tuple[int, int]) -> range:
    """The seeds of a part. Neighbours go to different parts, so that all take as long."""
    first, last = bounds
    return range(first + part[0] - 1, last + 1, part[1])


def _check(events: int, nodes: int) -> None:
    few = 0 <= events <= 5000 and 1 <= nodes <= 50
    if not few or events * nodes > 50000:
        raise LabError(WORDS, "--events is at most 5000, --nodes from 1 to 50, and both multiplied at most 50000")


def main(arguments: argparse.Namespace) -> int:
    """Plays the seeds, and tells what they came to."""
    if arguments.join:
        totals, interrupted = _joined(arguments.join), False
    else:
        _check(arguments.events, arguments.nodes)
        totals = Totals(arguments.events, arguments.nodes)
        interrupted = _play(arguments, totals)
    if arguments.part:
        print(totals.kept())
    else:
        lines = [] if arguments.verdict else list(totals.report())
        print("\n".join([*lines, *([] if arguments.no_verdicts else totals.verdict_report())]).lstrip("\n"))
    if interrupted:
        print(f"lab: interrupted, after {totals.seeds} seeds", file=sys.stderr)
        return INTERRUPT
    return 0


def _joined(names: List[str]) -> Totals:
    """What parts of a sweep come to together."""
    parts = [read_totals(name, line) for name in names for line in read_lines(name)]
    if not parts:
        raise LabError(FILE, "there is no line of 'lab sweep --part' in these files")
    for part in parts[1:]:
        if not parts[0].fits(part):
            raise LabError(WORDS, "these parts aren't of one sweep: their scripts have other events, or other nodes")
        parts[0].join(part)
    return parts[0]


def _play(arguments: argparse.Namespace, totals: Totals) -> bool:
    """Plays the seeds. Gives whether the user interrupted it."""
    events, nodes = arguments.events, arguments.nodes
    seeds = _seeds(arguments.seeds, arguments.part or (1, 1))

    def summary(seed: int) -> Summary:
        lines = [] if arguments.no_verdicts else script_of_seed(seed, events, nodes)
        names = names_of(lines) if lines else []
        told = (_inside(lines, nodes) if lines else None) or _by_program(seed, events, nodes)
        return _summary(told, [name for name in names if arguments.verdict in (None, name)])

    progress = Progress(len(seeds), "seeds")
    try:
        for seed, told in in_order(summary, seeds, arguments.jobs):
            totals.add(seed, *told)
            progress.step()
        return False
    except KeyboardInterrupt:
        return True
    finally:
        progress.close()
