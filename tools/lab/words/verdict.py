"""`lab verdict`: what happened to the data."""
from __future__ import annotations

import argparse

from ..expand import read_expanded
from ..telling import what_happened
from ..verdicts import MEANINGS

SUMMARY = "tells what happened to each write of a script, and names what went wrong"
DETAILS = """\
Of each write it tells at which concerns it was acknowledged, where it was rolled back or not on disk in a crash, and where
it is at the end: in which logs, on which disks of nodes that are down, or nowhere. Writes that follow each other and that
the same became of are told together. 'lab run' and 'lab picture' end with the same, where it is long the beginning of it.

The verdicts, each with the lines that show it:

""" + "\n".join(f"  {name:18}  {meaning}" for name, meaning in MEANINGS.items()) + """

A write is lost where the primary at the end (that of the highest term) is of a later term and lacks it, or where no
log and no disk has it. No majority read is dirty, and nothing that is acknowledged at majority is lost: that is proved, and
an 'acked-lost' at majority would be a fault of the program. In a block majority reads aren't judged.

'lab vary', 'lab sweep' and 'lab shrink' look for a verdict with --verdict NAME."""


def add_arguments(parser: argparse.ArgumentParser) -> None:
    """The word's arguments."""
    parser.add_argument("file", metavar="FILE", help="a script, short or plain; - for standard input")


def main(arguments: argparse.Namespace) -> int:
    """Tells what happened."""
    script = read_expanded(arguments.file)
    # A fault of the script is told as such, before restarts are put after its end.
    script.play()
    print("\n".join(what_happened(script, everything=True)))
    return 0
