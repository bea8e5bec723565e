"""The lab's views of a run: pictures, verdicts, lines beside their replies."""
from __future__ import annotations

from pathlib import Path
from typing import List, Optional

from .lab.documents import documents_after
from .lab.drawing import svg_file
from .lab.expand import Expanded
from .lab.layout import picture_of, window
from .lab.observe import observe
from .lab.page import page
from .lab.program import play, transcript_bytes
from .lab.show import beside
from .lab.smaller import named_by_nodes, smallest
from .lab.telling import names_of, verdicts_of
from .lab.telling import what_happened as fates
from .lab.verdicts import Verdict
from .lab.words.picture import MOST_ROWS


def verdicts(lines: List[str]) -> List[Verdict]:
    """What went wrong with data, the gravest first."""
    return verdicts_of(lines)


def what_happened(lines: List[str]) -> str:
    """What became of each write, and the verdicts."""
    return "\n".join(fates(Expanded(lines, list(range(1, len(lines) + 1))), everything=True))


def shortest(lines: List[str], verdict: str) -> List[str]:
    """Lines of a script of which none can be left out for its run to have a verdict."""

    def has_it(tried: List[str]) -> bool:
        return verdict in names_of(tried)

    if not has_it(lines):
        raise ValueError(f"the run has no verdict {verdict}")
    named = named_by_nodes(lines)
    return smallest(named if has_it(named) else lines, has_it, 1, lambda left: None)


def transcript(lines: List[str]) -> str:
    """What `replset run` prints."""
    return transcript_bytes(lines).decode()


def told(lines: List[str]) -> str:
    """Each line beside its reply, and then what happened to the data."""
    return "\n".join([*beside(lines, play(lines), {}), "", what_happened(lines)])


def drawn(lines: List[str], title: str = "a run") -> str:
    """A run as SVG."""
    first, last = _window(lines)
    return svg_file(picture_of(observe(lines, first, last), first, last), title)


def draw(lines: List[str], output: Path, title: Optional[str]) -> None:
    """Draws a run into a file."""
    named = title or output.stem.replace("_", " ")
    if output.suffix == ".svg":
        text = drawn(lines, named)
    elif output.suffix == ".html":
        first, last = _window(lines)
        run = observe(lines, first, last)
        text = page(picture_of(run, first, last), named, documents_after(run, first, last), verdicts_of(lines))
    else:
        raise ValueError(f"a picture is a page (.html) or a picture alone (.svg), and {output} is none")
    output.write_text(text, encoding="utf-8")


def _window(lines: List[str]) -> "tuple[int, int]":
    """The last lines that a picture has room for."""
    return window(lines, (max(1, len(lines) - MOST_ROWS + 1), len(lines)), MOST_ROWS)
