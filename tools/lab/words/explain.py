"""`lab explain`: what a word, a reply or a script's fault means."""
from __future__ import annotations

import argparse
import os
import re
import textwrap
from typing import Dict, Iterator, List, Optional

from ..diagnose import cause_of, surprises
from ..errors import NOTHING, LabError, ScriptFault, StoppedMacro
from ..expand import expand, up_to
from ..reference import Entry, closest, find, read_reference, read_terms
from ..script import is_silent, read_lines, words_of
from ..show import printable
from ..traces import judged
from ..typed import is_foreign

SUMMARY = "says what a word, a reply or a script's fault means, and what to do"
DETAILS = """\
A word is a command, a macro, or a name that is printed: 'fetch', 'NoSource', 'BadText', 'w1-lost'; also a term, as
'optime'. A reply is written as it was printed, with or without its number: 'refused 15 Waiting 1 2'. Of a file that is no
script the faulty line is shown with a caret and the likely cause; of one that is, what may not be what was meant; of a
trace, whether it is that of a run ('lab check' says more).

The texts are those of docs/REFERENCE.md, and of terms those of docs/GLOSSARY.md."""

SECTIONS = {
    "Commands": "command", "Replies": "reply", "Refusals": "refusal", "Reasons": "reason", "Verdicts": "verdict",
    "Macros": "macro", "Terms": "term", "Tables": "told by a word of the program",
    "How the program is called": "word of the program",
}


def add_arguments(parser: argparse.ArgumentParser) -> None:
    """The word's arguments."""
    parser.add_argument("what", metavar="WORD | REPLY | FILE", nargs="+", help="what is to be explained")


def _told(entry: Entry, values: Dict[str, str]) -> Iterator[str]:
    kind = SECTIONS.get(entry.section, "rule" if entry.section.startswith("Rules") else "fault of a script")
    yield f"{entry.name}   ({kind})"
    yield from textwrap.wrap(entry.meaning, 96, initial_indent="  ", subsequent_indent="  ")
    if values:
        yield "  Here " + ", ".join(f"{name} is {value}" for name, value in values.items()) + "."
    if _has_enough(values):
        yield "  So enough others have it: what is missing is the primary's own copy, which isn't on disk yet."
    if entry.advice:
        yield from textwrap.wrap(f"What to do: {entry.advice}", 96, initial_indent="  ", subsequent_indent="  ")


def _has_enough(values: Dict[str, str]) -> bool:
    """Whether a concern waits, and as many members as are needed have it on disk."""
    held, needed = values.get("HELD", ""), values.get("NEEDED", "")
    return held.isdecimal() and needed.isdecimal() and int(held) >= int(needed)


def explain_words(said: str) -> List[str]:
    """What the page says of a word or a reply."""
    entries, terms = read_reference(), read_terms()
    found = find(entries, said) or find(terms, said)
    if not found:
        near = closest([*entries, *terms], said.split(" ")[-1])
        hint = f"; is it {' or '.join(near)}?" if near else ""
        raise LabError(NOTHING, f"nothing explains '{said}', and it is no file{hint}")
    told: List[str] = []
    for entry, values in found[:8]:
        told += ["", *_told(entry, values)] if told else list(_told(entry, values))
    return told


def _nodes(lines: List[str]) -> Optional[int]:
    for line in lines:
        if not is_silent(line):
            found = re.match(r"set (\d+)", line)
            return int(found[1]) if found else None
    return None


def _shown(front: str, line: str, place: Optional[int]) -> List[str]:
    """A line, or the part of it round a place, with a caret below that."""
    shown = printable(line).replace("\t", "→").replace("\r", "␍").replace("\ufeff", "␀")
    if len(shown) > 100:
        begins = max(0, min(len(shown) - 100, (place or 0) - 60))
        shown, place = shown[begins : begins + 100], None if place is None else place - begins
    caret = [] if place is None else [" " * (len(front) + place) + "^"]
    return [front + shown, *caret] if shown else []


def explain_fault(lines: List[str], fault: ScriptFault) -> List[str]:
    """The faulty line with a caret, the likely cause, and what the page says of its rule."""
    cause = cause_of(fault.text, fault.rule, _nodes(lines))
    told = [f"line {fault.line}: {fault.rule}"]
    line = lines[fault.line - 1] if fault.line <= len(lines) else ""
    if line.rstrip("\r") != fault.text.rstrip("\r"):
        told += ["", *_shown(f"  {fault.line}  ", line, None), "  which comes to"]
        shown = _shown(f"  ({fault.plain})  ", fault.text, cause.place)
    else:
        shown = _shown(f"  {fault.line}  ", fault.text, cause.place)
    told += ["", *shown] if shown and len(told) == 1 else shown
    if cause.told:
        told.append(f"  {cause.told}")
    entries = read_reference()
    pages = find(entries, fault.rule)
    if fault.rule in ("WordCount", "BadWord", "BadNumber"):
        pages += find(entries, words_of(fault.text)[0])
    for entry, values in pages:
        told += ["", *_told(entry, values)]
    return told


def _explain_stop(lines: List[str], fault: StoppedMacro) -> List[str]:
    """A macro that can't go on: what it did, why it stops, and what it is for."""
    word = words_of(lines[fault.line - 1])[0]
    own = [plain for plain, origin in zip(fault.lines, fault.source) if origin == fault.line]
    told = [f"line {fault.line}: {fault.why}"]
    if len(own) > 1:
        told += ["", *up_to(fault)]
    for entry, values in find(read_reference(), word):
        told += ["", *_told(entry, values)]
    return told


def _explain_file(name: str) -> List[str]:
    lines = read_lines(name)
    if lines[:1] and lines[0].startswith("trace "):
        return judged(lines)
    try:
        script = expand(lines)
        script.play()
    except ScriptFault as fault:
        return explain_fault(lines, fault)
    except StoppedMacro as fault:
        return _explain_stop(lines, fault)
    told = [f"line {script.number(at)}: {what}\n  {printable(script.lines[at - 1])}" for at, what in surprises(script.lines)]
    foreign = "its document is mongosh's. The lab reads it ('lab expand' prints what it comes to); the program doesn't"
    told += [f"line {number}: {foreign}" for number, line in enumerate(lines, 1) if is_foreign(line)]
    return told or [f"{name} is a script, and nothing in it is likely to surprise"]


def _is_known(said: str) -> bool:
    return bool(find(read_reference(), said) or find(read_terms(), said))


def main(arguments: argparse.Namespace) -> int:
    """Prints the explanation."""
    asked = arguments.what
    if len(asked) > 1 and not any(map(os.path.isfile, asked)) and _is_known(" ".join(asked)):
        asked = [" ".join(asked)]
    for place, said in enumerate(asked):
        is_file = said == "-" or os.path.isfile(said)
        print("\n".join(([""] if place else []) + (_explain_file(said) if is_file else explain_words(said))))
    return 0
