"""The lines of a script: how they are read from a file, and what stands in one."""
from __future__ import annotations

import sys
from dataclasses import dataclass
from functools import lru_cache
from pathlib import Path
from typing import List, Optional, Sequence

from .errors import FILE, SCRIPT, LabError

WRITES = ("insert", "replace", "update", "delete")
#: Commands whose second word is the node that acts, by what they are about.
KINDS = {
    **dict.fromkeys(WRITES, "write"), **dict.fromkeys(("retry", "note", "begin", "commit", "abort"), "write"),
    "ack": "ack", "read": "read", "dump": "read", "log": "read", "state": "read", "rolled": "read",
    "campaign": "vote", "dryrun": "vote", "drain": "vote", "stepdown": "vote",
    "heartbeat": "heartbeat", "fetch": "fetch", "report": "report", "common": "common",
    "apply": "disk", "flush": "disk", "checkpoint": "disk", "reconfig": "member",
    "crash": "crash", "restart": "crash", "diskfail": "crash", "clock": "crash",
}
#: So many members of a set vote at most.
MOST_VOTERS = 7

#: What is known of so many lines is kept: variations of a script have the same lines.
KEPT = 4096
COMMANDS = ("set", *KINDS, "deliver", "par", "thread", "end")


@dataclass(frozen=True)
class SetSize:
    """What the first line of a script says."""

    nodes: int
    voters: int
    members: int


def read_lines(name: str) -> List[str]:
    """The lines of a file, or of standard input for `-`, as they stand."""
    try:
        raw = sys.stdin.buffer.read() if name == "-" else Path(name).read_bytes()
    except OSError as fault:
        raise LabError(FILE, f"{name} can't be read: {(fault.strerror or str(fault)).lower()}") from None
    if b"\0" in raw:
        raise LabError(SCRIPT, f"{name} is no script: it has bytes that no text has")
    return split_lines(raw.decode("utf-8", "surrogateescape"))


def split_lines(text: str) -> List[str]:
    """The lines of a text, where the last one may lack its end."""
    lines = text.split("\n")
    return lines[:-1] if lines[-1] == "" else lines


def is_silent(line: str) -> bool:
    """Whether a line says nothing to the program: it is empty or a comment."""
    return line.rstrip("\r") == "" or line.startswith("#")


def words_of(line: str) -> List[str]:
    """The words of a line, without a carriage return at its end."""
    return line.rstrip("\r").split(" ")


@lru_cache(KEPT)
def first_word(line: str) -> str:
    """A command's name, or nothing where the line says nothing to the program."""
    return "" if is_silent(line) else words_of(line)[0]


def node_number(word: str) -> Optional[int]:
    """The number of a node's name, such as `n2`."""
    return int(word[1:]) if word[:1] == "n" and word[1:].isdecimal() else None


@lru_cache(KEPT)
def acting_node(line: str) -> Optional[int]:
    """The node that a command names first, or none for `deliver mK`, a comment or a block's words."""
    words = words_of(line)
    if is_silent(line) or len(words) < 2:
        return None
    return node_number(words[2] if words[0] == "deliver" and len(words) > 2 else words[1])


def kind_of_write(line: str) -> str:
    """The kind of a write, which `begin` and `retry` name after words of their own; of any other command its first word."""
    words = line.split(" ")
    place = {"begin": 3, "retry": 4}.get(words[0], 0)
    return words[place if place < len(words) else 0]


def document_places(line: str) -> List[int]:
    """Where the values of a line begin: an ID, a document, or both."""
    words = line.split(" ")
    front = {"read": 4, "begin": 5, "retry": 6}.get(words[0], 3)
    if kind_of_write(line) not in (*WRITES, "read") or len(words) <= front:
        return []
    return [len(" ".join(words[:front])) + 1]


def set_size(lines: Sequence[str]) -> SetSize:
    """How many nodes the script's set has, and how many of them vote and are members."""
    for number, line in enumerate(lines, 1):
        if is_silent(line):
            continue
        words = words_of(line)
        counts = [int(word) for word in words[1:] if word.isdecimal()]
        if words[0] != "set" or not counts or len(counts) != len(words) - 1:
            raise LabError(SCRIPT, f"this is no script: its first command, at line {number}, isn't 'set NODES'")
        if len(counts) == 1:
            return SetSize(counts[0], min(counts[0], MOST_VOTERS), counts[0])
        return SetSize(counts[0], counts[1], counts[-1])
    raise LabError(SCRIPT, "this is no script: it has no command; a script begins with 'set NODES'")
