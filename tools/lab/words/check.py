"""`lab check`: whether a trace is that of a run, and what is wrong where it isn't."""
from __future__ import annotations

import argparse

from ..errors import DIFFERENT
from ..script import read_lines
from ..traces import judged

SUMMARY = "says whether a trace is that of a run, and what is likely wrong where it isn't"
DETAILS = """\
'replset check' decides. Where it says that a reply is another one (OtherReply), what stands there is shown beside what the
run says, with a mark below where the two part; and where one step more before that event makes the run say what stands
there (a flush, a heartbeat, a report, ..), that step is told. It is found by trying, and is a guess.

The status is 1 where the trace is none."""


def add_arguments(parser: argparse.ArgumentParser) -> None:
    """The word's arguments."""
    parser.add_argument("file", metavar="TRACE", help="a trace, as 'replset trace' prints it; - for standard input")


def main(arguments: argparse.Namespace) -> int:
    """Tells what is right or wrong with the trace."""
    told = judged(read_lines(arguments.file))
    print("\n".join(told))
    return 0 if told[0].startswith("yes ") else DIFFERENT
