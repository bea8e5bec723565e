"""A picture as a page: one file of HTML with the drawing, what its rows say, and a script that shows it."""
from __future__ import annotations

import json
from html import escape
from pathlib import Path
from typing import Any, Dict, List, Optional, Sequence

from .documents import Documents
from .drawing import FOOT, HATCH, HEAD, ROW, SIGNS, STYLE, Drawing, resting
from .elements import Element, all_markup, markup
from .layout import Picture, Row
from .show import printable
from .state import State
from .verdicts import Verdict

HERE = Path(__file__).resolve().parent

#: So many verdicts have a button.
MOST_VERDICTS = 24

#: Rows on a printed sheet.
SHEET = 50

KINDS = {
    "vote": "elections", "heartbeat": "heartbeats", "fetch": "fetches", "report": "reports", "common": "rollbacks",
    "write": "writes", "ack": "acknowledgements", "read": "reads", "disk": "disks", "crash": "crashes", "member": "members",
}


def page(picture: Picture, title: str, documents: Optional[Dict[int, Documents]], found: Sequence[Verdict] = ()) -> str:
    """The whole page. The verdicts are marked in it."""
    drawing = Drawing(picture, clients=True)
    template = _file("page.html")
    parts = {
        "TITLE": escape(title),
        "STYLE": STYLE + _file("drawing.css") + _file("page.css") + _filter_rules(picture),
        "NODES": _boxes({f"n{node}": f"n{node}" for node in range(picture.nodes)}, ""),
        "KINDS": _boxes({kind: name for kind, name in KINDS.items() if _has(picture, kind)}, "k-"),
        "DEFS": markup(HATCH),
        "HEAD": _svg("", all_markup(drawing.heading()), drawing.width, 0, HEAD),
        "BODY": _svg("body", _body(drawing, found), drawing.width, 0, drawing.height),
        "VERDICTS": _verdicts(drawing, found),
        "LEGEND": _legend(),
        "SHEETS": _sheets(drawing, title),
        "DATA": json.dumps(_data(drawing, documents, found), separators=(",", ":"), ensure_ascii=True).replace("<", "\\u003c"),
        "SCRIPT": _file("page.js"),
    }
    for name, text in parts.items():
        template = template.replace("{{" + name + "}}", text)
    return template


def _file(name: str) -> str:
    return (HERE / name).read_text(encoding="utf-8")


def _has(picture: Picture, kind: str) -> bool:
    return any(row.kind == kind for row in picture.rows)


def _svg(identity: str, content: str, width: int, top: int, height: int) -> str:
    named = f' id="{identity}"' if identity else ""
    return (
        f'<svg{named} class="run" viewBox="0 {top} {width} {height}" width="{width}" height="{height}">{content}</svg>'
    )


def _body(drawing: Drawing, found: Sequence[Verdict]) -> str:
    drawn = all_markup(drawing.body(), "\n")
    over = all_markup([*flags(drawing, found), *rests(drawing)])
    return f'<g id="drawing" class="run">{drawn}</g>{over}'


def _legend() -> str:
    """The signs and what they mean, as words that wrap."""
    return "".join(
        f'<span class="sign"><svg class="run" width="{room}" height="14" viewBox="0 -11 {room} 14">{all_markup(sign)}</svg>{name}</span>'
        for sign, room, name in SIGNS
    )


def _boxes(names: Dict[str, str], front: str) -> str:
    return "".join(
        f'<label><input type="checkbox" checked data-hides="{front}{name}"> {escape(shown)}</label>'
        for name, shown in names.items()
    )


def _filter_rules(picture: Picture) -> str:
    """What a box that isn't checked hides: the drawing gets the class `no-` and the name."""
    nodes = [f"n{node}" for node in range(picture.nodes)]
    rules = [f"#drawing.no-{node} .{node}:not(.line), .no-{node} .head.{node} {{ display: none; }}" for node in nodes]
    rules += [f"#drawing.no-k-{kind} .k-{kind}:not(.line) {{ display: none; }}" for kind in KINDS]
    rules += [f"#drawing.no-{name} .line.{name} {{ opacity: 0.25; }}" for name in [*nodes, *(f"k-{kind}" for kind in KINDS)]]
    return "\n".join(rules)


def rests(drawing: Drawing) -> List[Element]:
    """What is pointed at and tapped: a clear stripe over each row."""
    return [
        Element("rect", {"class": "rest", "data-row": place, "x": 0, "y": place * ROW, "width": drawing.width, "height": ROW},
                [Element("title", {}, [resting(row)])])
        for place, row in enumerate(drawing.picture.rows)
        if row.step is not None
    ]


def _rows_of(drawing: Drawing, verdict: Verdict) -> List[int]:
    """The rows that show a verdict, as far as they are in the picture."""
    return [place for place, row in enumerate(drawing.picture.rows) if row.step is not None and row.line in verdict.lines]


def _verdicts(drawing: Drawing, found: Sequence[Verdict]) -> str:
    """A button for each verdict, which shows its last row."""
    shown = []
    for verdict in found[:MOST_VERDICTS]:
        rows = _rows_of(drawing, verdict)
        goes = f' data-row="{rows[-1]}"' if rows else " disabled"
        shown.append(f'<button type="button" class="verdict"{goes} title="{escape(verdict.told)}">{escape(verdict.name)}</button>')
    if len(found) > MOST_VERDICTS:
        shown.append(f"<span>and {len(found) - MOST_VERDICTS} more</span>")
    return "verdicts " + " ".join(shown) if shown else "no verdicts"


def flags(drawing: Drawing, found: Sequence[Verdict]) -> List[Element]:
    """A mark in front of each row that shows a verdict."""
    rows: Dict[int, List[str]] = {}
    for verdict in found:
        for place in _rows_of(drawing, verdict):
            rows.setdefault(place, []).append(verdict.name)
    return [
        Element("rect", {"class": "flag", "x": 0, "y": place * ROW + 1, "width": 4, "height": ROW - 2},
                [Element("title", {}, [", ".join(dict.fromkeys(names))])])
        for place, names in rows.items()
    ]


def _sheets(drawing: Drawing, title: str) -> str:
    """The drawing once more, cut into pieces that fit on paper. Only print shows them."""
    sheets: List[str] = []
    count = len(drawing.picture.rows)
    for top in range(0, max(count, 1), SHEET):
        rows = min(SHEET, count - top)
        signs = f'<g transform="translate(0 {HEAD + rows * ROW})">{all_markup(drawing.legend())}</g>'
        legend = signs if top + rows >= count else ""
        height = HEAD + rows * ROW + (FOOT if legend else 0)
        inner = (
            f'<svg x="0" y="{HEAD}" width="{drawing.width}" height="{rows * ROW}" '
            f'viewBox="0 {top * ROW} {drawing.width} {rows * ROW}"><use href="#drawing"/></svg>'
        )
        name = escape(title) + (f", part {top // SHEET + 1} of {-(-count // SHEET)}" if count > SHEET else "")
        svg = f'<svg class="run" viewBox="0 0 {drawing.width} {height}">{all_markup(drawing.heading())}{inner}{legend}</svg>'
        sheets.append(f'<section class="sheet"><h2>{name}</h2>{svg}</section>')
    return "".join(sheets)


def _data(drawing: Drawing, documents: Optional[Dict[int, Documents]], found: Sequence[Verdict]) -> Dict[str, Any]:
    """What the page's script shows of each row. Documents are told once, and then by their place."""
    told: List[Documents] = []
    known: Dict[int, int] = {}
    rows: List[Any] = []
    for row in drawing.picture.rows:
        if row.step is None:
            rows.append(None)
            continue
        node = row.step.node
        if documents is not None and node is not None and row.line in documents:
            known[node] = len(told)
            told.append(tuple(printable(one) for one in documents[row.line]))
        rows.append(_row(row, None if node is None else known.get(node)))
        rows[-1]["verdicts"] = [f"{verdict.name}: {verdict.told}" for verdict in found if row.line in verdict.lines]
    return {
        "gutter": drawing.gutter, "width": drawing.width, "row": ROW, "rows": rows, "documents": told,
        "many": documents is None,
    }


def _row(row: Row, documents: Optional[int]) -> Dict[str, Any]:
    step = row.step
    assert step is not None
    return {
        "line": row.line, "text": row.text, "reply": row.reply, "bad": row.bad, "node": step.node,
        "more": [printable(one) for one in step.reply.more[:200]], "change": step.told_change(),
        "states": [_state(state) for state in row.states], "documents": documents,
    }


def _state(state: State) -> List[str]:
    return [state.role, state.term, state.last, state.durable, state.applied, state.commit, state.config]
