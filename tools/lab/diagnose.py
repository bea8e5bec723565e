"""What is likely meant where a line of a script is at fault, and what may surprise in one that isn't."""
from __future__ import annotations

import difflib
import json
import re
from dataclasses import dataclass
from typing import Iterator, List, Optional, Sequence, Tuple

from .foreign import double
from .macros import FORMS
from .notation import NotationFault, fault_of, read_value
from .script import COMMANDS, document_places, is_silent, kind_of_write, node_number, words_of

#: What is told of doubles, but for what could be written.
DOUBLES = "there are no doubles"

#: What people write from habit in a document: a pattern, and what to write here.
HABITS = (
    (r"ObjectId\s*\(", 'an ObjectId is written Id("24 HEX DIGITS")'),
    (r"ISODate\s*\(|new\s+Date\s*\(|Date\s*\(\s*[\"')]", "a date is written Date(MILLISECONDS), as a number since 1970 "
     "(mongosh's Date(..) and ISODate(..) take a text)"),
    (r"NumberLong\s*\(|Long\s*\(", "an integer of 64 bits is written with L after it, as 5L"),
    (r"NumberInt\s*\(|Int32\s*\(", "an integer of 32 bits is written by itself, as 5"),
    (r"NumberDecimal\s*\(|Decimal128\s*\(", "there are no decimals: write an integer, or a string"),
    (r"Timestamp\s*\(", "a timestamp is written Time(SECONDS, INCREMENT)"),
    (r"BinData\s*\(|HexData\s*\(", 'bytes are written Bin(SUBTYPE, "HEX"), in hex and not in base64'),
    (r"UUID\s*\(", 'a UUID is written Bin(4, "32 HEX DIGITS")'),
    (r"-?[0-9]+(?:\.[0-9]+(?:[eE][-+]?[0-9]+)?|[eE][-+]?[0-9]+)", DOUBLES),
    (r"\b(?:NaN|Infinity)\b", "there are no doubles, so neither NaN nor Infinity"),
    (r"\b(?:True|False|None)\b", "true, false and null are written in small letters"),
    (r"\bundefined\b", "there is no undefined: write null, or leave the field out"),
    (r"'", "strings have double quotes, as \"a\""),
    (r"/[^/]+/[a-z]*", "there are no regular expressions"),
    (r",\s*[}\]]", "no comma follows the last member"),
    (r"//|/\*", "a comment is a line of its own that begins with #"),
)

EXTENDED = re.compile(r'"?(\$(?:oid|date|numberInt|numberLong|numberDouble|numberDecimal|binary|timestamp|uuid))"?\s*:')
CONFIG_KEYS = {"version", "members", "settings"}
MEMBER_KEYS = {"_id", "votes", "priority", "arbiterOnly", "secondaryDelaySecs"}
#: What a fault of another kind than Unexpected comes to.
FAULTS = {
    "Number": "the number is out of its range; an integer of more than 32 bits has L after it",
    "Escape": "only these stand after a backslash: \" \\ n r t, or u and four hex digits",
    "Hex": "hex digits stand here, two for each byte (24 in an ObjectId)",
    "DuplicateName": "this name stands twice in one document",
    "TooDeep": "level 101 begins here",
}
#: Keys of rs.conf() that are passed over here.
PASSED_OVER = {"host", "hidden", "tags", "buildIndexes", "term", "protocolVersion", "writeConcernMajorityJournalDefault"}


@dataclass(frozen=True)
class Cause:
    """The place of a line's fault, counted from 0 where it is known, and the likely cause."""

    place: Optional[int]
    told: str


def cause_of(line: str, rule: str, nodes: Optional[int]) -> Cause:
    """Where a faulty line is likely at fault, and why."""
    line = line.rstrip("\r")
    found = _spacing(line)
    odd = _odd_character(line)
    if odd is not None:
        return odd
    if found is not None and rule.split(" ")[0] in ("UnknownCommand", "WordCount", "BadWord", "BadNode", "BadNumber", "NoSetLine"):
        return found
    if rule in ("UnknownCommand", "NoSetLine") and line:
        return _command(line)
    if rule == "BadNode":
        return _node(line, nodes)
    if rule.startswith("BadText"):
        return _document(line)
    if rule == "BadConfigText":
        return _configuration(line)
    if rule == "WordCount":
        return Cause(None, f"'{line.split(' ')[0]}' has another number of words; write it as below")
    return Cause(None, "")


def _odd_character(line: str) -> Optional[Cause]:
    """Characters that nobody sees."""
    if line.startswith("\ufeff"):
        return Cause(0, "a byte order mark stands here, which some editors put in front: save the file as UTF-8 without one")
    if "\r" in line:
        return Cause(line.index("\r"), "a carriage return stands here, and only one right before the line's end is passed over")
    if "\u00a0" in line.split('"')[0]:
        return Cause(line.index("\u00a0"), "a space that doesn't break stands here; words are parted by a plain one")
    return None


def _spacing(line: str) -> Optional[Cause]:
    """Spaces and tabs that aren't one space between words. A document's own spaces don't count."""
    front = re.split(r"[{\"]", line, maxsplit=1)[0]
    tab = front.find("\t")
    if tab >= 0:
        return Cause(tab, "a tab stands here; words are parted by one space")
    if line.startswith(" "):
        return Cause(0, "the line begins with a space")
    double = front.find("  ")
    if double >= 0:
        return Cause(double + 1, "two spaces stand here; words are parted by one")
    if line.endswith(" "):
        return Cause(len(line) - 1, "the line ends with a space")
    return None


def _command(line: str) -> Cause:
    word = line.split(" ")[0]
    if word == "set":
        return Cause(0, "a set is made once, by the first line")
    if word in FORMS:
        return Cause(0, f"'{word}' is a macro of short scripts: play it by 'lab run', or 'lab expand' it")
    near = difflib.get_close_matches(word.lower(), [*COMMANDS, *FORMS], 1)
    if word in COMMANDS:
        return Cause(0, "the first command must be 'set NODES [VOTERS [MEMBERS]]'")
    return Cause(0, f"did you mean '{near[0]}'?" if near else f"there is no command '{word}'")


def _node(line: str, nodes: Optional[int]) -> Cause:
    words = line.split(" ")
    seen: List[int] = []
    place = len(words[0]) + 1
    asked = 2 if words[0] in ("heartbeat", "report", "common", "deliver") else 1
    for word in words[1 : 1 + asked]:
        number = node_number(word)
        if number is None:
            return Cause(place, f"a node is written n0, n1 and so on, and no '{word}'")
        if nodes is not None and number >= nodes:
            return Cause(place, f"the set has {nodes} nodes, n0 to n{nodes - 1}")
        if number in seen:
            return Cause(place, "a message goes to another node")
        seen.append(number)
        place += len(word) + 1
    return Cause(None, "")


def _document(line: str) -> Cause:
    for begins in document_places(line):
        kind = kind_of_write(line)
        if kind in ("replace", "update"):
            try:
                begins = read_value(line, begins) + 1
            except NotationFault as fault:
                return Cause(fault.place, _meant(line, fault))
        found = fault_of(line, begins)
        if found is not None and line.endswith(" ") and found.place == len(line.rstrip(" ")):
            return Cause(found.place, "the line ends with a space")
        if found is not None:
            return Cause(found.place, _meant(line, found))
        if not line[begins:].startswith("{") and kind not in ("delete", "read"):
            return Cause(begins, "a document stands here, in { and }")
    return Cause(None, _habit(line, 0))


def _meant(line: str, fault: NotationFault) -> str:
    return FAULTS.get(fault.rule) or _habit(line, fault.place)


def _habit(line: str, place: int) -> str:
    """The habit that the text round a place shows, if any."""
    for pattern, told in HABITS:
        for found in re.finditer(pattern, line):
            if found.start() - 1 <= place <= found.end():
                return double(found[0]) if told == DOUBLES else told
    if place >= len(line):
        return "the line ends too soon: a bracket or a quotation mark isn't closed"
    word = re.match(r"[A-Za-z]+", line[place:])
    return f"'{word[0]}' is no value; a string stands in double quotes" if word else "this can't stand here"


def _configuration(line: str) -> Cause:
    begins = len(" ".join(line.split(" ")[:2])) + 1
    try:
        told = json.loads(line[begins:])
    except ValueError as fault:
        place = begins + getattr(fault, "pos", 0)
        return Cause(place, f"this is no JSON: {getattr(fault, 'msg', 'it ends too soon').lower()}")
    for key in ("version", "members"):
        if not isinstance(told, dict) or key not in told:
            return Cause(begins, f'a configuration needs the key "{key}"')
    for number, member in enumerate(told["members"] if isinstance(told["members"], list) else []):
        for key, value in (member.items() if isinstance(member, dict) else []):
            if isinstance(value, (float, dict)) and key in MEMBER_KEYS:
                return Cause(None, f'"{key}" of member {number} must be a plain whole number, and not {json.dumps(value)}')
    return Cause(begins, "each key has its own kind of value, as below")


def surprises(lines: Sequence[str]) -> Iterator[Tuple[int, str]]:
    """What is no fault and may still not be what was meant, with the number of its line."""
    for number, line in enumerate(lines, 1):
        # Most lines have neither, and are passed over quickly.
        if "$" not in line and not line.startswith("reconfig") or is_silent(line):
            continue
        extended = EXTENDED.search(line)
        if extended and document_places(line):
            told = f"extended JSON is read as a plain document with a field {extended[1]}"
            yield number, told + " ('notation mongosh' before it has it read as MongoDB does; so does lab convert)"
        if words_of(line)[0] == "reconfig":
            yield from ((number, told) for told in _unknown_keys(line))


def _unknown_keys(line: str) -> Iterator[str]:
    try:
        told = json.loads(line.split(" ", 2)[2])
    except (ValueError, IndexError):
        return
    members = told.get("members", []) if isinstance(told, dict) else []
    keys = [(key, CONFIG_KEYS) for key in (told if isinstance(told, dict) else {})]
    keys += [(key, MEMBER_KEYS) for member in members if isinstance(member, dict) for key in member]
    keys += [(key, {"chainingAllowed"}) for key in (told.get("settings") or {})] if isinstance(told, dict) else []
    for key, known in dict.fromkeys((key, frozenset(known)) for key, known in keys if key not in known):
        near = difflib.get_close_matches(key, sorted(known), 1)
        meant = f"; did you mean \"{near[0]}\"?" if near and key not in PASSED_OVER else ""
        yield f'the key "{key}" is passed over{meant}'
