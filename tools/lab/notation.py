"""Reads the notation of documents, to say where one breaks a rule. The program says only which rule."""
from __future__ import annotations

import json
import re
from typing import Iterator, Optional, Tuple

#: What a bracket opens needs no more than so many levels.
MOST_LEVELS = 100

_NAME = re.compile(r"[A-Za-z_$][A-Za-z_$0-9]*")
_DIGITS = re.compile(r"-?[0-9]+")
_WORDS = re.compile(r"(?:true|false|null)(?![A-Za-z_$0-9])")
_HEX = re.compile(r"[0-9a-fA-F]*")


class NotationFault(Exception):
    """A text breaks a rule at a place, counted from 0."""

    def __init__(self, place: int, rule: str):
        super().__init__(rule)
        self.place = place
        self.rule = rule


def read_value(text: str, place: int, level: int = 1) -> int:
    """The place after the value that begins at `place`; a NotationFault where none stands there."""
    first = text[place : place + 1]
    if first in ("{", "["):
        return _members(text, place, level)
    if first == '"':
        return _string(text, place)
    digits = _DIGITS.match(text, place)
    if digits:
        end = digits.end()
        wide = text[end : end + 1] == "L"
        _check_range(int(digits[0]), place, 64 if wide else 32)
        return end + wide
    word = _WORDS.match(text, place)
    if word:
        return word.end()
    for name, reader in (("Date", _date), ("Bin", _bin), ("Id", _id), ("Time", _time)):
        found = _NAME.match(text, place)
        if found is not None and found[0] == name:
            return reader(text, place + len(name))
    raise NotationFault(place, "Unexpected")


def fault_of(text: str, place: int) -> Optional[NotationFault]:
    """What is wrong with the value that should stand from `place` to the end of the text, if anything is."""
    try:
        end = read_value(text, place)
    except NotationFault as fault:
        return fault
    return NotationFault(end, "Unexpected") if end != len(text) else None


def members(text: str, place: int = 0) -> Iterator[Tuple[str, str]]:
    """The names of the document that begins at a place, each with its value as it is spelled."""
    place = _spaces(text, place + 1)
    while text[place : place + 1] != "}":
        begins, place = place, _name(text, place)
        name = text[begins:place]
        place = _sign(text, place, ":")
        end = read_value(text, place)
        yield (json.loads(name, strict=False) if name.startswith('"') else name), text[place:end]
        place = _spaces(text, end)
        if text[place : place + 1] == ",":
            place = _spaces(text, place + 1)


def _spaces(text: str, place: int) -> int:
    while text[place : place + 1] == " ":
        place += 1
    return place


def _sign(text: str, place: int, sign: str) -> int:
    """The place after a sign, with spaces on both of its sides."""
    place = _spaces(text, place)
    if text[place : place + 1] != sign:
        raise NotationFault(place, "Unexpected")
    return _spaces(text, place + 1)


def _members(text: str, place: int, level: int) -> int:
    if level > MOST_LEVELS:
        raise NotationFault(place, "TooDeep")
    named, close = text[place] == "{", "}" if text[place] == "{" else "]"
    names = set()
    place = _spaces(text, place + 1)
    if text[place : place + 1] == close:
        return place + 1
    while True:
        if named:
            begins = place
            place = _name(text, place)
            name = text[begins:place].strip('"')
            if name in names:
                raise NotationFault(begins, "DuplicateName")
            names.add(name)
            place = _sign(text, place, ":")
        place = _spaces(text, read_value(text, place, level + 1))
        if text[place : place + 1] == close:
            return place + 1
        place = _sign(text, place, ",")


def _name(text: str, place: int) -> int:
    if text[place : place + 1] == '"':
        return _string(text, place)
    name = _NAME.match(text, place)
    if name is None:
        raise NotationFault(place, "Unexpected")
    return name.end()


def _string(text: str, place: int) -> int:
    place += 1
    while place < len(text):
        if text[place] == '"':
            return place + 1
        if text[place] < " " or text[place] == "\x7f":
            break
        if text[place] != "\\":
            place += 1
        elif text[place + 1 : place + 2] in tuple('"\\nrt'):
            place += 2
        elif re.match(r"u[0-9a-fA-F]{4}", text[place + 1 : place + 6]):
            place += 6
        else:
            raise NotationFault(place + 1, "Escape")
    raise NotationFault(min(place, len(text)), "Unexpected")


def _check_range(number: int, place: int, bits: int) -> None:
    if not -(2 ** (bits - 1)) <= number < 2 ** (bits - 1):
        raise NotationFault(place, "Number")


def _number(text: str, place: int, most: int) -> int:
    digits = re.compile("[0-9]+").match(text, place)
    if digits is None:
        raise NotationFault(place, "Unexpected")
    if int(digits[0]) > most:
        raise NotationFault(place, "Number")
    return digits.end()


def _date(text: str, place: int) -> int:
    place = _sign(text, place, "(")
    digits = _DIGITS.match(text, place)
    if digits is None:
        raise NotationFault(place, "Unexpected")
    _check_range(int(digits[0]), place, 64)
    return _close(text, digits.end())


def _close(text: str, place: int) -> int:
    place = _spaces(text, place)
    if text[place : place + 1] != ")":
        raise NotationFault(place, "Unexpected")
    return place + 1


def _hex(text: str, place: int, digits: Optional[int]) -> int:
    if text[place : place + 1] != '"':
        raise NotationFault(place, "Unexpected")
    digit = _HEX.match(text, place + 1)
    end = digit.end() if digit else place + 1
    count = end - place - 1
    if text[end : end + 1] != '"' or count % 2 or digits not in (None, count):
        raise NotationFault(end, "Hex")
    return _close(text, end + 1)


def _bin(text: str, place: int) -> int:
    place = _number(text, _sign(text, place, "("), 255)
    return _hex(text, _sign(text, place, ","), None)


def _id(text: str, place: int) -> int:
    return _hex(text, _sign(text, place, "("), 24)


def _time(text: str, place: int) -> int:
    place = _number(text, _sign(text, place, "("), 2**32 - 1)
    return _close(text, _number(text, _sign(text, place, ","), 2**32 - 1))
