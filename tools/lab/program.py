"""Where the programs of this repository are, and how a script is handed to one."""
from __future__ import annotations

import os
import subprocess
import sys
from pathlib import Path
from typing import Dict, List, Sequence

from .errors import FAILED, FILE, PROGRAM, LabError, ScriptFault
from .inside import played
from .quick import run
from .transcript import Transcript, read_transcript

TOP = Path(__file__).resolve().parents[2]

#: Builds a program of this checkout in some minutes, with nothing proved.
BUILDER = TOP / "tools" / "build_unproved"

_found: Dict[str, str] = {}


def find_program(name: str = "replset") -> str:
    """The path of a program: what the environment names, else the proved one, else one without proofs, built if need be."""
    if name not in _found:
        _found[name] = _search(name)
    return _found[name]


def _search(name: str) -> str:
    named = os.environ.get(name.upper())
    if named:
        if not os.access(named, os.X_OK) or os.path.isdir(named):
            raise LabError(PROGRAM, f"{name.upper()} names {named}, which is no program")
        return os.path.abspath(named)
    unproved = TOP / "build" / name
    # ./replset lets one that is built quickly stand beside it, until the optimised one does.
    quick = [TOP / "build" / "quick"] if name == "replset" else []
    built = [place for place in (unproved, *quick) if os.access(place, os.X_OK)]
    for place in (TOP / "crates" / name / "out" / name, *sorted(built, key=os.path.getmtime, reverse=True)):
        if os.access(place, os.X_OK):
            return str(place)
    return _build(name, unproved)


def _build(name: str, target: Path) -> str:
    crate = TOP / "crates" / name
    if not os.access(BUILDER, os.X_OK) or not crate.is_dir():
        raise LabError(PROGRAM, f"there is no program {name} here: set {name.upper()} to the path of one")
    print(f"lab: building {name} without proofs, which takes three minutes", file=sys.stderr)
    target.parent.mkdir(exist_ok=True)
    try:
        done = subprocess.run([str(BUILDER), str(target), str(crate)], stdout=subprocess.DEVNULL, stderr=subprocess.PIPE)
    except OSError as fault:
        raise LabError(PROGRAM, f"{BUILDER.name} can't be run: {fault.strerror}") from None
    if done.returncode != 0 or not os.access(target, os.X_OK):
        raise LabError(PROGRAM, f"there is no program {name}, and {BUILDER.name} built none (is rt on the path?)")
    return str(target)


def run_program(words: Sequence[str], script: bytes = b"", name: str = "replset") -> "subprocess.CompletedProcess[bytes]":
    """The program's end on these words and this input, with its output."""
    program = find_program(name)
    try:
        return subprocess.CompletedProcess([program, *words], *run(program, words, script))
    except OSError as fault:
        raise LabError(PROGRAM, f"{program} can't be run: {fault.strerror}") from None


def write_file(name: str, content: bytes) -> None:
    """Puts this into a file."""
    try:
        Path(name).write_bytes(content)
    except OSError as fault:
        raise LabError(FILE, f"{name} can't be written: {(fault.strerror or str(fault)).lower()}") from None


def script_bytes(lines: Sequence[str]) -> bytes:
    """The lines as a script's bytes. What wasn't UTF-8 when it was read comes out as it was."""
    return "\n".join([*lines, ""]).encode("utf-8", "surrogateescape")


def transcript_bytes(lines: Sequence[str]) -> bytes:
    """The transcript of a script, or a ScriptFault where the lines are none."""
    script = script_bytes(lines)
    inside = played(script)
    if inside is not None and inside.fault is None:
        return inside.text
    if inside is not None and inside.fault is not None:
        raise ScriptFault(*inside.fault, _line(lines, inside.fault[0]))
    done = run_program(["run"], script)
    if done.returncode == 0:
        return done.stdout
    said = done.stdout.decode("utf-8", "replace").strip()
    if done.returncode == 3 and said.startswith("line "):
        number, rule = said[len("line "):].split(": ", 1)
        raise ScriptFault(int(number), rule, _line(lines, int(number)))
    if done.returncode == 6:
        raise LabError(FAILED, "the script has more than 8,388,608 bytes")
    raise LabError(FAILED, f"the program ended with status {done.returncode} where it should play the script")


def _line(lines: Sequence[str], number: int) -> str:
    return lines[number - 1] if number <= len(lines) else ""


def play(lines: List[str]) -> Transcript:
    """The replies to a script."""
    return read_transcript(transcript_bytes(lines).decode("utf-8", "surrogateescape"))


def last_replies(lines: List[str], first: int) -> Transcript:
    """The replies from that of line `first` on, which isn't in a block. Those before it aren't read, which saves time."""
    raw = transcript_bytes(lines)
    head = b"%d: " % first
    begins = 0 if raw.startswith(head) else raw.rfind(b"\n" + head) + 1
    return read_transcript(raw[begins:].decode("utf-8", "surrogateescape"))
