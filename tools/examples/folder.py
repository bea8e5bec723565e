"""The folder of the examples: its scripts, and what is written beside them, as its README.md says."""
from __future__ import annotations

import re
from pathlib import Path
from typing import Iterator, List, NamedTuple

EXAMPLES = Path(__file__).resolve().parents[2] / "examples"

#: What may be asked for after a script, by what the file's name ends in.
QUESTIONS = {"watch": "changes", "linear": "linear reads", "sync": "new members"}

#: What a file beside a script may end in.
BESIDE = ("replset", "out", "md", "trace", *QUESTIONS)

TABLES = ("blocks", "checked", "refused", "repeated", "summaries")


class Row(NamedTuple):
    """A row of a table: what stands in its heading, and the text below it."""

    heading: str
    text: str


class Question(NamedTuple):
    """Words that ask for something after a script, and the lines that tell it."""

    words: List[str]
    lines: str


def names(ending: str = "replset") -> List[str]:
    """The names of the files that end so, in order."""
    return sorted(path.stem for path in EXAMPLES.glob(f"*.{ending}"))


def read(name: str, ending: str) -> str:
    """A file of the folder, each byte of it."""
    return (EXAMPLES / f"{name}.{ending}").read_bytes().decode()


def table(name: str) -> Iterator[Row]:
    """The rows of a table. Each begins with two equality signs and its heading."""
    for row in re.split(r"^== ", read(name, "table"), flags=re.MULTILINE)[1:]:
        heading, _, text = row.partition("\n")
        yield Row(heading, text)


def questions(name: str, ending: str) -> Iterator[Question]:
    """What is asked after a script. An empty line ends each question's lines."""
    for question in read(name, ending).split("\n\n"):
        words, _, lines = question.partition("\n")
        yield Question(words.split(" "), lines.rstrip() + "\n")


def strays() -> List[str]:
    """What lies in the folder and isn't read here, each in a sentence."""
    known = {"README.md", *(f"{name}.table" for name in TABLES)}
    known.update(f"{name}.{ending}" for name in names() for ending in BESIDE)
    return [f"nothing reads {path.name}" for path in sorted(EXAMPLES.iterdir()) if path.name not in known]
