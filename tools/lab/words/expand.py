"""`lab expand`: a short script as a plain one."""
from __future__ import annotations

import argparse
import sys

from ..expand import read_script
from ..program import script_bytes

SUMMARY = "prints the plain script that a short one comes to"
DETAILS = """\
Each macro becomes a comment, with its lines below. What they are depends on the replies: a fetch chooses its source, a
log that has parted is rolled back, a line that would be refused is left out. So the plain script says in full what the
macros did, and 'replset run' plays it."""


def add_arguments(parser: argparse.ArgumentParser) -> None:
    """The word's arguments."""
    parser.add_argument("file", metavar="FILE", help="a short script; - for standard input")


def main(arguments: argparse.Namespace) -> int:
    """Prints the plain script."""
    sys.stdout.buffer.write(script_bytes(read_script(arguments.file)))
    return 0
