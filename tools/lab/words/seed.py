"""`lab seed`: the script that `chaos` plays."""
from __future__ import annotations

import argparse
import re
import sys

from ..chance import script_of_seed
from ..errors import WORDS, LabError
from ..program import script_bytes

SUMMARY = "prints the script that 'replset chaos SEED EVENTS NODES' plays"
DETAILS = """\
It is made by the same generator as that of the program, and by the same draws.

    lab seed 7 200 3 | lab shrink - --keep 'rolled back'"""


def add_arguments(parser: argparse.ArgumentParser) -> None:
    """The word's arguments."""
    parser.add_argument("seed", metavar="SEED", help="a number of 64 bits")
    parser.add_argument("events", metavar="EVENTS", help="0 to 5000")
    parser.add_argument("nodes", metavar="NODES", help="1 to 50")


def main(arguments: argparse.Namespace) -> int:
    """Prints the script."""
    given = (arguments.seed, arguments.events, arguments.nodes)
    if not all(re.fullmatch("[0-9]{1,20}", word) for word in given):
        given = ("0", "0", "0")
    seed, events, nodes = map(int, given)
    if seed >= 2**64 or events > 5000 or not 1 <= nodes <= 50 or events * nodes > 50000:
        raise LabError(WORDS, "SEED is a number of 64 bits, EVENTS is 0 to 5000, NODES is 1 to 50, and EVENTS times NODES at most 50000")
    sys.stdout.buffer.write(script_bytes(script_of_seed(seed, events, nodes)))
    return 0
