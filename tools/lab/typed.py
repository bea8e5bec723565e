"""Documents that are typed in a script as mongosh has them, or in Extended JSON, become those of a script."""
from __future__ import annotations

import re

from .errors import SCRIPT, LabError
from .foreign import ForeignFault, read_foreign
from .notation import NotationFault, fault_of, read_value
from .script import document_places, is_silent
from .values import own

#: What stands in a line that may have a document of mongosh's in it.
_FORMS = re.compile(
    r"(?:ObjectId|ISODate|NumberLong|NumberInt|\bLong|\bLong\.fromString|\bInt32|Timestamp|BinData|HexData|UUID)\s*\("
    r"|Binary\.|\bnew\s+Date\b|Date\s*\(\s*[\"']|'|\\u[dD][89abAB]"
)


def is_foreign(line: str) -> bool:
    """Whether a line has a document that no script can have, and that mongosh may."""
    return not is_silent(line) and _FORMS.search(line) is not None and bool(document_places(line)) and not _is_own(line)


def translated(line: str) -> str:
    """The line with its ID and its document as a script has them."""
    places = document_places(line)
    if not places:
        return line
    line = line.rstrip("\r")
    place, told = places[0], line[: places[0]]
    try:
        while place < len(line):
            value, place = read_foreign(line, place)
            told += own(value)
            if place < len(line):
                if line[place] != " ":
                    raise ForeignFault(place, "something stands here after the value")
                told, place = told + " ", place + 1
    except ForeignFault as fault:
        raise LabError(SCRIPT, f"column {fault.place + 1}: {fault.told}") from None
    return told


def _is_own(line: str) -> bool:
    line = line.rstrip("\r")
    for place in document_places(line):
        if fault_of(line, place) is None:
            return True
        try:
            end = read_value(line, place)
        except NotationFault:
            return False
        # An ID, and after it a document.
        return line[end : end + 1] == " " and fault_of(line, end + 1) is None
    return True
