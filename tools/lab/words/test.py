"""`lab test`: scripts whose comments say what is expected."""
from __future__ import annotations

import argparse
import difflib
from pathlib import Path
from typing import List

from ..errors import DIFFERENT, FILE, LabError, StoppedMacro
from ..expand import Expanded, read_expanded, up_to
from ..expect import expectations
from ..program import run_program, script_bytes
from ..script import read_lines
from ..show import printable

SUMMARY = "plays scripts, and compares the replies with what their comments expect"
DETAILS = """\
A comment '# expect: TEXT' after a command speaks of its reply (after a macro, of that to its last line): it must be
TEXT, or begin with it and a space. '..' in TEXT stands for anything. Several such comments in a row speak of the
reply's lines, one after another:

    await n0 last
    # expect: acked
    dump n1 local
    # expect: documents 1
    # expect: orders {_id: 1, ..

Where a file FILE.out stands beside FILE.replset, the whole transcript must be as it says. What differs is shown as a
diff, and the status is 1 then."""


def add_arguments(parser: argparse.ArgumentParser) -> None:
    """The word's arguments."""
    parser.add_argument("files", metavar="FILE", nargs="+", help="scripts, short or plain")


def _transcript_differs(name: str) -> List[str]:
    """The diff to the transcript that is kept beside a script."""
    kept = Path(name).with_suffix(".out")
    wanted = kept.read_text(encoding="utf-8", errors="replace").split("\n")
    found = run_program(["run"], script_bytes(read_lines(name))).stdout.decode("utf-8", "replace").split("\n")
    return list(difflib.unified_diff(wanted, found, str(kept), "what it prints", lineterm=""))


def _comments_differ(script: Expanded) -> List[str]:
    """What a script's comments expect and isn't so."""
    told: List[str] = []
    for one in expectations(script.lines, script.play()):
        if not one.met:
            found = "(no reply, or no further line of it)" if one.found is None else one.found
            told.append(f"  line {script.number(one.line)}, after {printable(one.command)}")
            told += [f"  - {one.wanted}", f"  + {printable(found)}"]
    return told


def _count(lines: List[str]) -> int:
    return sum(line.startswith("# expect:") for line in lines)


def main(arguments: argparse.Namespace) -> int:
    """Tests each file, and tells of each."""
    wrong = 0
    for name in arguments.files:
        kept = Path(name).with_suffix(".out")
        told: List[str] = []
        count = 0
        if name != "-" and kept != Path(name) and kept.is_file():
            told, count = _transcript_differs(name), 1
        try:
            script = read_expanded(name)
            count += _count(script.lines)
            told += _comments_differ(script)
        except StoppedMacro as fault:
            told += [*("  " + line for line in up_to(fault)), f"  {fault.sentence}"]
        except LabError as fault:
            if fault.status == FILE:
                raise
            # A script that is none may be just what the kept transcript says.
            told += [] if count else [f"  {fault.sentence}"]
        wrong += bool(told)
        print(f"{name}: " + ("not as expected" if told else "as expected" if count else "played; it expects nothing"))
        if told:
            print("\n".join(told))
    return DIFFERENT if wrong else 0
