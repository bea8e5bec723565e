"""`lab picture`: the space-time diagram of a run."""
from __future__ import annotations

import argparse
import re
from pathlib import Path
from typing import Optional, Tuple

from ..documents import documents_after
from ..drawing import svg_file
from ..errors import FILE, WORDS, LabError
from ..expand import read_expanded
from ..layout import picture_of, window
from ..observe import observe
from ..page import page
from ..telling import verdicts_of, what_happened

SUMMARY = "draws a run: nodes as columns, messages as arrows, time going down"
DETAILS = """\
The page (.html) shows, of each line that is tapped, its reply, what it changed, the nodes' states and documents; keys step
through the run, and boxes hide nodes and kinds of messages. Each writer, each session and whoever reads has a lane to the
right of the nodes, with what it was told; the rows that show a verdict are marked. It is one file that asks no other host
for anything, is dark where the system is, and prints. The picture alone (.svg) is for documents.

A picture shows at most 500 lines; --lines says which."""

MOST_ROWS = 500


def add_arguments(parser: argparse.ArgumentParser) -> None:
    """The word's arguments."""
    parser.add_argument("file", metavar="FILE", help="a script, short or plain; - for standard input")
    parser.add_argument("-o", dest="output", metavar="OUT", help="where to put it: a name that ends in .html or .svg "
                        "(without it, FILE with .html, in the present folder)")
    parser.add_argument("--lines", metavar="FROM-TO", type=_line_range, help="the lines of the plain script to show")
    parser.add_argument("--title", metavar="TEXT", help="the page's title (without it, the file's name)")


def _line_range(text: str) -> Tuple[int, int]:
    found = re.fullmatch(r"(\d+)-(\d+)", text)
    if not found or not 1 <= int(found[1]) <= int(found[2]):
        raise argparse.ArgumentTypeError(f"'{text}' are no lines such as 1-500")
    return int(found[1]), int(found[2])


def _output(given: Optional[str], name: str) -> Path:
    output = Path(given or ("run.html" if name == "-" else Path(name).stem + ".html"))
    if output.suffix not in (".html", ".svg"):
        raise LabError(WORDS, f"-o {output}: a picture is a page (.html) or a picture alone (.svg)")
    return output


def main(arguments: argparse.Namespace) -> int:
    """Puts the picture into its file."""
    output = _output(arguments.output, arguments.file)
    script = read_expanded(arguments.file)
    lines = script.lines
    first, last = window(lines, arguments.lines, MOST_ROWS)
    found = verdicts_of(lines) if output.suffix == ".html" else []
    run = observe(lines, first, last)
    picture = picture_of(run, first, last)
    title = arguments.title or ("a run" if arguments.file == "-" else Path(arguments.file).stem.replace("_", " "))
    if output.suffix == ".svg":
        text = svg_file(picture, title)
    else:
        text = page(picture, title, documents_after(run, first, last), found)
    try:
        output.write_text(text, encoding="utf-8")
    except OSError as fault:
        raise LabError(FILE, f"{output} can't be written: {(fault.strerror or str(fault)).lower()}") from None
    part = f", lines {first} to {last} of {len(lines)} (--lines FROM-TO shows others)" if last - first + 1 < len(lines) else ""
    print("\n".join([f"{output}{part}", *what_happened(script)]))
    return 0
