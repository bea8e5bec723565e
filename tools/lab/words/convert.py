"""`lab convert`: documents from one notation to another."""
from __future__ import annotations

import argparse
import re
import sys
from pathlib import Path
from typing import Any, Iterator

from ..bson_bytes import read_documents
from ..errors import FILE, SCRIPT, WORDS, LabError
from ..foreign import ForeignFault, read_foreign, read_own
from ..notation import fault_of
from ..values import NOTATIONS, Value

SUMMARY = "turns documents into a script's notation, or into MongoDB's"
DETAILS = """\
Reads Extended JSON (relaxed or canonical), what is typed in mongosh (ObjectId(..), ISODate(..), NumberLong(..), BinData(..),
single quotes, unquoted names), the lines of mongoexport or its array, and a script's own forms; or, of a file that ends in
.bson, the documents of mongodump. Prints a document a line as a script has it; with --insert NODE COLL the lines that
insert them; with --to another notation: mongosh, relaxed or canonical. With --from own only a script's own notation is read,
in which {"$date": ..} is a plain document; that is so where --to isn't own.

Doubles, decimals and regular expressions are in no script: the first one ends it, told with its place and what could be
written in its stead."""


def add_arguments(parser: argparse.ArgumentParser) -> None:
    """The word's arguments."""
    parser.add_argument("file", metavar="FILE", nargs="?", default="-", help="documents; - for standard input, as without it")
    parser.add_argument("--to", choices=list(NOTATIONS), default="own", help="the notation that is printed (own)")
    parser.add_argument("--from", dest="source", choices=("own", "any"), help="the notation that is read (any, but own with --to)")
    parser.add_argument("--insert", metavar=("NODE", "COLL"), nargs=2, help="print the commands that insert the documents")


def _content(name: str) -> bytes:
    try:
        return sys.stdin.buffer.read() if name == "-" else Path(name).read_bytes()
    except OSError as fault:
        raise LabError(FILE, f"{name} can't be read: {(fault.strerror or str(fault)).lower()}") from None


def _place(text: str, place: int) -> str:
    line = text.count("\n", 0, place) + 1
    return f"line {line}, column {place - text.rfind(chr(10), 0, place)}"


def _foreign(text: str) -> Iterator[Value]:
    """The values that stand one after another, of an array its items."""
    place = 0
    while True:
        skipped = re.compile(r"[\s;,]*").match(text, place)
        place = skipped.end() if skipped else place
        if place >= len(text):
            return
        try:
            value, place = read_foreign(text, place)
        except ForeignFault as fault:
            raise LabError(SCRIPT, f"{_place(text, fault.place)}: {fault.told}") from None
        yield from value if isinstance(value, list) else [value]


def _own(text: str) -> Iterator[Value]:
    """The documents of lines in a script's own notation."""
    for number, line in enumerate(text.splitlines(), 1):
        if line.strip():
            fault = fault_of(line, 0)
            if fault is not None:
                raise LabError(SCRIPT, f"line {number}, column {fault.place + 1}: this is no value of a script: {fault.rule}")
            yield read_own(line)


def _values(arguments: argparse.Namespace) -> Iterator[Any]:
    content = _content(arguments.file)
    if arguments.file.endswith(".bson"):
        return read_documents(content, arguments.file)
    text = content.decode("utf-8-sig", "replace")
    own = (arguments.source or ("any" if arguments.to == "own" else "own")) == "own"
    return _own(text) if own else _foreign(text)


def main(arguments: argparse.Namespace) -> int:
    """Prints the documents."""
    front = ""
    if arguments.insert:
        node, collection = arguments.insert
        if not re.fullmatch(r"n\d+", node) or not re.fullmatch(r"[A-Za-z][\w.]{0,63}", collection) or arguments.to != "own":
            raise LabError(WORDS, "--insert reads 'NODE COLL', as 'n0 orders', and prints a script's own notation")
        front = f"insert {node} {collection} "
    for value in _values(arguments):
        print(front + NOTATIONS[arguments.to](value))
    return 0


