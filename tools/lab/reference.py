"""The entries of docs/REFERENCE.md, so that what `lab explain` says and what the page says can't differ.

An entry is a heading of the third level. Its first paragraph says what it means, and one that begins with `Action:` what
helps. Words in capitals in a heading stand for values, as in `15 Waiting HELD NEEDED`.
"""
from __future__ import annotations

import difflib
import re
from dataclasses import dataclass
from pathlib import Path
from typing import Dict, Iterator, List, Optional, Tuple

from .errors import FILE, LabError
from .program import TOP

PAGE = TOP / "docs" / "REFERENCE.md"
TERMS = TOP / "docs" / "GLOSSARY.md"

#: How a paragraph begins that says what helps.
ADVICE = "Action:"

#: The words of a heading that stand for values.
VALUE = re.compile(r"(?:[A-Z]+(?:/[A-Z]+)?|[mwn][KJ]|\.\.)$")


@dataclass(frozen=True)
class Entry:
    """One entry of the page."""

    section: str
    name: str
    meaning: str
    advice: str

    @property
    def words(self) -> List[str]:
        """The heading's words, without what may be left out."""
        return re.sub(r"[\[\]]", "", self.name).split(" ")


def _page(path: Path) -> str:
    try:
        return path.read_text(encoding="utf-8")
    except OSError as fault:
        raise LabError(FILE, f"{path} can't be read, which has the explanations: {(fault.strerror or '').lower()}") from None


def read_terms(path: Path = TERMS) -> List[Entry]:
    """The glossary's terms, each with what it is."""
    rows = [row.split(" | ") for row in _page(path).split("\n") if row.startswith("| ")]
    return [Entry("Terms", name, _plain(row[1]), "") for row in rows for name in row[0].lstrip("| ").split(", ") if name != "Here"]


def _rows(text: str) -> Iterator[Entry]:
    """What a table says of names that the program prints."""
    for row in text.split("\n"):
        cells = row.strip("| ").split(" | ")
        if row.startswith("| `") and re.search(r"[a-z][A-Z]", cells[0]):
            yield Entry("Tables", cells[0].strip("`"), _plain(cells[-1]), "")


def read_reference(path: Path = PAGE) -> List[Entry]:
    """All entries of the page, in its order; those of its tables stand last."""
    text = _page(path)
    entries: List[Entry] = []
    section = ""
    for block in re.split(r"^(?=##+ )", text, flags=re.MULTILINE):
        head, _, rest = block.partition("\n")
        if head.startswith("## "):
            section = head[3:].strip()
        elif head.startswith("### "):
            entries.append(_entry(section, head[4:].strip().strip("`"), rest))
    return [*entries, *_rows(text)]


def _entry(section: str, name: str, text: str) -> Entry:
    paragraphs = [_plain(part) for part in re.split(r"\n\s*\n", text.strip()) if not part.startswith("```")]
    meaning = next((part for part in paragraphs if not part.startswith(("- ", ADVICE))), "")
    advice = next((part[len(ADVICE):].strip() for part in paragraphs if part.startswith(ADVICE)), "")
    return Entry(section, name, meaning, advice)


def _plain(text: str) -> str:
    """A paragraph on one line, without marks of Markdown."""
    text = re.sub(r"\[([^\]]*)\]\([^)]*\)", r"\1", " ".join(text.split()))
    return text.replace("`", "")


def _is_value(word: str) -> bool:
    return VALUE.match(word) is not None


def values_in(entry: Entry, said: str) -> Optional[Dict[str, str]]:
    """The values of the words in capitals, where what was said is as the heading has it."""
    values: Dict[str, str] = {}
    told = said.split(" ")
    for place, word in enumerate(entry.words):
        if word == "..":
            return values
        if place >= len(told):
            return None
        if word == "DOCUMENT":
            values[word], told = " ".join(told[place:]), told[: place + 1]
        elif _is_value(word):
            # A word that stands twice in a heading is no name for either.
            values[word] = "" if word in values else told[place]
        elif word != told[place]:
            return None
    return {name: value for name, value in values.items() if value} if len(told) == len(entry.words) else None


def find(entries: List[Entry], said: str) -> List[Tuple[Entry, Dict[str, str]]]:
    """The entries that a word or a reply is about, each with what its words in capitals are in that reply."""
    said = re.sub(r"^(line \d+|\d+): ", "", said.strip().strip("`"))
    inner = re.sub(r"^(refused|ignored|vote refused) (?=\S)", "", said)
    commands = [entry for entry in entries if entry.section == "Commands" and entry.words[0] == said]
    found: List[Tuple[Entry, Dict[str, str]]] = [(entry, {}) for entry in commands]
    for text in dict.fromkeys([inner, said]):
        for entry in entries:
            values = values_in(entry, text) if entry.section != "Commands" else None
            if values is not None and (entry.words[-1] != ".." or not found):
                found.append((entry, values))
    for entry, values in list(found):
        ruled = f"{entry.words[-2]} {values['RULE']}" if "RULE" in values else None
        found += [(other, {}) for other in entries if other.name == ruled]
    return found or [(entry, {}) for entry in entries if _speaks_of(entry, inner)]


def _speaks_of(entry: Entry, said: str) -> bool:
    """Whether a heading has the word (of several the first), or the refusal's number."""
    word = said.split(" ")[0].lower()
    return entry.section != "Commands" and word in [one.lower() for one in entry.words if not _is_value(one)]


def closest(entries: List[Entry], said: str) -> List[str]:
    """Names that are much like what was said."""
    names = {word for entry in entries for word in entry.words if not _is_value(word) and not word.isdecimal()}
    return difflib.get_close_matches(said, sorted(names), 3)
