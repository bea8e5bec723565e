"""Reads the words after `lab`, and sees to it that whatever goes wrong is told in one sentence."""
from __future__ import annotations

import argparse
import importlib
import os
import re
import sys
from typing import IO, List, NoReturn, Optional, Sequence

from .errors import FILE, INTERRUPT, WORDS, LabError, StoppedMacro

#: The words, in the order in which help shows them.
WORD_NAMES = (
    "run", "picture", "shell", "verdict", "check", "convert", "expand", "test", "shrink", "vary", "sweep", "seed", "explain",
)

ABOUT = """\
Asks "what happens to my data if .." of a replica set, and shows the answer: a transcript beside its script, a picture,
a prompt, the smallest script that still does it, all that may happen round it.
"""

_ENDING = """\
A short script is a script with macros in it; every word that takes a FILE takes one, and - for standard input:

  elect A [B ..]           A campaigns, asks the voters (or those named) until it has won, and drains
  pull A [B]               A hears from B (or the primary), takes what it misses, rolls back where it must, flushes,
                           applies and reports; then it hears how far the commit point is
  spread A                 A flushes, and every member that hears it pulls from it
  partition A .. | B ..    no message passes between the sides; nodes that aren't named are a side of their own
  heal                     the partition ends
  await A OPTIME [CONCERN] members pull from A until it acknowledges OPTIME (at majority, or at CONCERN)
  repeat COUNT LINE        LINE so often, a command or a macro; # in it is 1, 2 and so on
  linear A COLL ID         a linearizable read at A
  watch COLL TOKEN A ..    the changes of COLL that A and others know to be committed, after TOKEN: 'start', 32 digits, or
                           a name, under which the next 'watch' goes on
  sync A                   what a new member that is made of A would begin with
  status                   the nodes as rs.status() has them
  tick COUNT SEED          so often a member does something by itself, as SEED draws it: heartbeats, fetches, reports,
                           flushes, and an election where it hears no primary
  notation mongosh         documents are read as mongosh and Extended JSON have them from here on; 'notation own' ends that
  last                     as an OPTIME of ack and await: that of A's newest write

{program}

statuses: 0 done; 1 a test isn't met, or a variation changes what is watched; 2 wrong words; 3 no script; 4 a file can't
be read or written; 5 no program, or too old a Python; 6 the program failed; 7 a macro can't go on; 8 nothing found; 130 interrupted

'lab WORD --help' says more about a word.{cookbook}
"""

_CHECKOUT = (
    "The program that plays the scripts is the one that the environment variable REPLSET names; else the proved one of this\n"
    "repository; else one that is built without proofs, in three minutes. Where a library is built (build/libreplset.so, or what\n"
    "REPLSET_LIBRARY names) and REPLSET names no program, it plays what it can: faster, and with the same replies."
)
_INSTALLED = "The program that plays the scripts is the one that the environment variable REPLSET names, or the installed one."

#: A word of the lab after its name, as texts have it.
_CALL = re.compile(r"\blab (?=(?:%s|WORD)\b)" % "|".join(WORD_NAMES))


def ending(in_checkout: bool) -> str:
    """What help ends with. What is installed has no cookbook, and builds nothing."""
    cookbook = " docs/COOKBOOK.md has questions with their scripts and pictures." if in_checkout else ""
    return _ENDING.replace("{program}", _CHECKOUT if in_checkout else _INSTALLED).replace("{cookbook}", cookbook)


def _called() -> str:
    """By what name the lab is called: `lab` in a checkout, `replset-lab` where it is installed."""
    name = os.path.basename(sys.argv[0])
    return name if name.endswith("lab") else "lab"


def _in_checkout() -> bool:
    return os.path.exists(os.path.join(os.path.dirname(os.path.abspath(__file__)), "..", "..", "docs", "COOKBOOK.md"))


class _Parser(argparse.ArgumentParser):
    """A parser that tells what is wrong in one sentence."""

    def error(self, message: str) -> NoReturn:
        raise LabError(WORDS, f"{message} ('{self.prog} --help' shows the words)")

    def _print_message(self, message: str, file: Optional[IO[str]] = None) -> None:
        """Prints help. Unlike that of the class above, this tells where that fails."""
        out = file or sys.stderr
        out.write(message)
        out.flush()


def _plain(prog: str) -> argparse.HelpFormatter:
    """Help as wide as its own texts, which stay as they are."""
    return argparse.RawDescriptionHelpFormatter(prog, max_help_position=20, width=118)


def parser_of(asked: Sequence[str], name: str = "lab", in_checkout: bool = True) -> argparse.ArgumentParser:
    """Reads these words. Where the first is a word of the lab, the others aren't loaded."""
    def said(text: str) -> str:
        return _CALL.sub(f"{name} ", text)

    parser = _Parser(prog=name, description=ABOUT, epilog=said(ending(in_checkout)), formatter_class=_plain)
    words = parser.add_subparsers(dest="word", metavar="WORD", required=True, title="words")
    for one in asked[:1] if asked[:1] and asked[0] in WORD_NAMES else WORD_NAMES:
        module = importlib.import_module(f".words.{one}", __package__)
        details = said(f"{module.SUMMARY}\n\n{module.DETAILS}")
        word = words.add_parser(one, help=said(module.SUMMARY), description=details, formatter_class=_plain)
        module.add_arguments(word)
        word.set_defaults(main=module.main)
    return parser


def main(words: Optional[List[str]] = None) -> int:
    """The status that the lab ends with on these words."""
    _open_streams()
    try:
        asked = sys.argv[1:] if words is None else words
        arguments = parser_of(asked, _called(), _in_checkout()).parse_args(asked)
        if sys.stdout is None:
            raise LabError(FILE, "there is no output: standard output is closed")
        status: int = arguments.main(arguments)
        sys.stdout.flush()
        return status
    except LabError as fault:
        return _stopped(fault)
    except KeyboardInterrupt:
        print("\nlab: interrupted", file=sys.stderr)
        return INTERRUPT
    except OSError as fault:
        return _unwritten(fault)


def _open_streams() -> None:
    """Where standard error is closed, nothing is told there; a closed input is an empty one."""
    if sys.stderr is None:
        sys.stderr = open(os.devnull, "w", encoding="utf-8")
    if sys.stdin is None:
        sys.stdin = open(os.devnull, encoding="utf-8")


def _stopped(fault: LabError) -> int:
    """Tells why a word stops, and of a macro what it did before."""
    try:
        if isinstance(fault, StoppedMacro):
            from .expand import up_to

            print("\n".join(up_to(fault)))
        if sys.stdout is not None:
            sys.stdout.flush()
    except OSError as unwritten:
        return _unwritten(unwritten)
    print(f"lab: {fault.sentence}", file=sys.stderr)
    return fault.status


def _unwritten(fault: OSError) -> int:
    """Tells that the output can't be written. What is still held back must not be written at the end."""
    if sys.stdout is not None:
        os.dup2(os.open(os.devnull, os.O_WRONLY), sys.stdout.fileno())
    if isinstance(fault, BrokenPipeError):
        # Whoever read has had enough.
        return 0
    print(f"lab: the output can't be written: {(fault.strerror or str(fault)).lower()}", file=sys.stderr)
    return FILE
