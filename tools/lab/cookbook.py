"""Keeps docs/COOKBOOK.md and its pictures as the scripts in docs/cookbook are.

In the page a line `<!-- script: NAME -->` stands over each script, and over the picture `![..](pictures/NAME.svg)`. A script
may say by a line `# picture: FROM-TO` which of its lines the picture shows.
"""
from __future__ import annotations

import re
from pathlib import Path
from typing import List, Optional, Tuple

from .drawing import svg_file
from .expand import expand
from .layout import picture_of, window
from .manual import made
from .observe import observe
from .program import TOP
from .script import read_lines
from .words.picture import MOST_ROWS

PAGE = TOP / "docs" / "COOKBOOK.md"
SCRIPTS = TOP / "docs" / "cookbook"
PICTURES = TOP / "docs" / "pictures"

# How often a script with a block is played to see the kept order.
ORDERS = 100

_BLOCK = re.compile(r"(<!-- script: (\w+) -->\n)```lab\n.*?```\n", re.DOTALL)
_LINES = re.compile(r"# picture: (\d+)-(\d+)$")


def scripts() -> List[Path]:
    """The cookbook's scripts."""
    return sorted(SCRIPTS.glob("*.lab"))


def picture_text(script: Path) -> str:
    """The SVG of a script's picture."""
    short = read_lines(str(script))
    said = [_LINES.match(line) for line in short]
    wanted = next(((int(found[1]), int(found[2])) for found in said if found), None)
    lines = expand(short).lines
    first, last = window(lines, wanted, MOST_ROWS)
    return svg_file(picture_of(observe(lines, first, last), first, last), script.stem.replace("_", " "))


def page_text(page: str) -> str:
    """The page with each of its scripts as the file is."""

    def block(found: "re.Match[str]") -> str:
        lines = [line for line in read_lines(str(SCRIPTS / f"{found[2]}.lab")) if not _LINES.match(line)]
        return found[1] + "```lab\n" + "\n".join(lines) + "\n```\n"

    return _BLOCK.sub(block, page)


def other_picture(script: Path, kept: Optional[str]) -> Optional[str]:
    """A script's picture, unless the kept one is it. The lines of a block are done in another order each time, and the kept
    picture shows one of them."""
    wanted = None
    for _ in range(ORDERS if "par" in read_lines(str(script)) else 1):
        wanted = picture_text(script)
        if wanted == kept:
            return None
    return wanted


def text_of(path: Path) -> Optional[str]:
    """What stands in a file, if it is there."""
    return path.read_text(encoding="utf-8") if path.is_file() else None


def out_of_date() -> List[Tuple[Path, str]]:
    """The files that are made from the scripts and aren't as they must be, each with what it must be."""
    wanted: List[Tuple[Path, Optional[str]]] = []
    for script in scripts():
        picture = PICTURES / f"{script.stem}.svg"
        wanted.append((picture, other_picture(script, text_of(picture))))
    page = PAGE.read_text(encoding="utf-8")
    wanted.append((PAGE, page_text(page) if page_text(page) != page else None))
    wanted += [(path, text if text_of(path) != text else None) for path, text in made()]
    return [(path, text) for path, text in wanted if text is not None]
