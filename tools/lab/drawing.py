"""Draws a picture: as elements, of which a page is made, and as a file of SVG.

Nothing rests on colour alone: a primary's lane is wide and full, a draining node's hatched, a candidate's dotted, a
secondary's thin, and where a node is down there is none; a message that wasn't taken is dashed and ends in a cross.
"""
from __future__ import annotations

from typing import List, Optional, Sequence, Tuple

from .elements import Attributes, Element, all_markup, markup
from .layout import Arrow, Band, Frame, Label, Mark, Picture, Row, Segment, Shade, Stub, Talk

ROW = 18
HEAD = 34
FOOT = 64
#: The width of a character of the script's text.
LETTER = 6.65
MOST_COMMAND, MOST_REPLY = 46, 38
#: Where the text of an arrow may stand: how far along it, and how far below; the first that is clear is taken.
PLACES = (
    (0.68, 0), (0.5, 0), (0.82, 0), (0.34, 0), (0.6, 12), (0.78, 12), (0.4, 12), (0.7, 17), (0.5, 22), (0.2, 0), (0.2, -6), (0.5, -9),
)
#: From one lane to the next, for up to so many nodes; and for more.
SPREADS, LEAST_SPREAD = ((4, 126), (5, 108), (6, 98), (7, 88)), 74
#: The room of a client's lane, and the characters of an answer in it.
CLIENT, MOST_ANSWER = 150, 24

STYLE = """\
svg.run { font: 11px ui-monospace, "DejaVu Sans Mono", Menlo, Consolas, monospace; background: #fff; }
.run .number { fill: #6b7280; }
.run .command { fill: #111827; }
.run .reply { fill: #374151; }
.run .bad { fill: #a4001d; }
.run .caption { font: italic 12px system-ui, "DejaVu Sans", sans-serif; fill: #1f2937; paint-order: stroke; stroke: #eef1f5; stroke-width: 3px; }
.run .shade { fill: #eef1f5; }
.run .parted { fill: #f5ead2; }
.run .parted.s1 { fill: #e6e0f2; }
.run .parted.s2 { fill: #dcecec; }
.run .head { font-weight: bold; font-size: 13px; fill: #111827; }
.run .label, .run .kind, .run .legend { font: 9.5px system-ui, "DejaVu Sans", sans-serif; fill: #111827; }
.run .label { font-weight: bold; }
.run .label, .run .kind { paint-order: stroke; stroke: #fff; stroke-width: 3px; stroke-linejoin: round; }
.run .kind { fill: #374151; }
.run .secondary { stroke: #8a919c; stroke-width: 2; }
.run .candidate { stroke: #9a4a00; stroke-width: 5; stroke-dasharray: 0.1 7; stroke-linecap: round; }
.run .draining { fill: url(#hatch); stroke: #0b5cad; stroke-width: 1.5; }
.run .primary { fill: #0b5cad; }
.run .band { fill: #a9dcc6; }
.run .band.c1 { fill: #6bbf9c; }
.run .band.c2 { fill: #2f8f6a; }
.run .band.c3 { fill: #17624a; }
.run .client { stroke: #b0b6bf; stroke-width: 1; stroke-dasharray: 1 3; }
.run .talk { stroke: #9a6700; stroke-width: 1; fill: none; }
.run .answer { font: 9.5px system-ui, "DejaVu Sans", sans-serif; fill: #6b4700; paint-order: stroke; stroke: #fff; stroke-width: 3px; }
.run .answer.bad { fill: #a4001d; }
.run .message { stroke: #33527a; stroke-width: 1.3; fill: none; }
.run .tip { fill: #33527a; }
.run .message.lost { stroke: #c1121f; stroke-dasharray: 5 3; }
.run .cross { stroke: #c1121f; stroke-width: 2; fill: none; }
.run .cross.under { stroke: #fff; stroke-width: 5; }
.run .stub { stroke: #6b7280; stroke-width: 1.3; fill: none; }
.run .dot { fill: #4b5563; stroke: #fff; stroke-width: 1; }
.run .square { fill: #111827; stroke: #fff; stroke-width: 1; }
.run .check { stroke: #0a6b46; stroke-width: 2.4; fill: none; }
.run .check.under { stroke: #fff; stroke-width: 5.5; }
.run .ring { stroke: #111827; stroke-width: 1.6; fill: #fff; }
.run .cut { stroke: #c1121f; stroke-width: 2.4; fill: none; }
.run .cut.under { stroke: #fff; stroke-width: 7; }
.run .frame { fill: none; stroke: #4b5563; stroke-width: 1.2; stroke-dasharray: 3 3; }
"""

HATCH = Element("pattern", {
    "id": "hatch", "width": 5, "height": 5, "patternUnits": "userSpaceOnUse", "patternTransform": "rotate(45)",
}, [Element("rect", {"width": 5, "height": 5, "fill": "#fff"}), Element("rect", {"width": "2.4", "height": 5, "fill": "#0b5cad"})])


def _path(name: str, line: str) -> Element:
    return Element("path", {"class": name, "d": line})


def _box(name: str, x: int, y: int, width: int, height: int) -> Element:
    return Element("rect", {"class": name, "x": x, "y": y, "width": width, "height": height})


#: The signs of the legend: how each is drawn, its width and what it means.
SIGNS: Sequence[Tuple[List[Element], int, str]] = (
    ([_box("primary", 0, -9, 10, 10)], 16, "primary"),
    ([_box("draining", 0, -9, 10, 10)], 16, "draining (won)"),
    ([_path("candidate", "M2 -4H22")], 28, "candidate"),
    ([_path("secondary", "M0 -4H20")], 26, "secondary"),
    ([_path("cross", "M0 -8l8 8m0 -8l-8 8")], 14, "down, then a gap"),
    ([_box("band c2", 0, -9, 6, 10)], 12, "commit point"),
    ([_path("message", "M0 -4H20"), _path("tip", "M26 -4l-8 -3.5v7z")], 32, "message"),
    ([_path("message lost", "M0 -4H20"), _path("cross", "M18 -8l8 8m0 -8l-8 8")], 32, "ignored or refused"),
    ([_path("stub", "M0 -4H20M20 -9v10")], 26, "never delivered"),
    ([_box("square", 0, -8, 8, 8)], 14, "write"),
    ([_box("parted", 0, -9, 14, 10)], 20, "parted from the others"),
    ([_path("check", "M0 -4l3 4l7 -9")], 16, "acknowledged"),
    ([_path("cut", "M0 -3l4 -5l5 8l5 -8l5 8l4 -5")], 30, "rollback"),
)


class Drawing:
    """A picture with its measures in pixels."""

    def __init__(self, picture: Picture, clients: bool = False):
        self.picture = picture
        self.clients = picture.clients if clients else []
        #: Where texts stand already, so that others keep clear of them.
        self._taken: List[Tuple[float, float, float, float]] = []
        shown = [row for row in picture.rows if not row.caption]
        command = min(MOST_COMMAND, max((len(row.text) for row in shown), default=8))
        reply = min(MOST_REPLY, max((len(row.reply) for row in shown), default=8))
        digits = len(str(picture.lines[1])) + 1
        self.command_at = 8 + digits * LETTER
        self.reply_at = self.command_at + (command + 2) * LETTER
        #: Where the lanes begin: left of it is text.
        self.gutter = round(self.reply_at + (reply + 1) * LETTER)
        #: From one lane to the next: the more nodes, the less.
        self.spread = next((room for most, room in SPREADS if picture.nodes <= most), LEAST_SPREAD)
        self.width = self.gutter + 48 + self.spread * (picture.nodes - 1) + 124 + CLIENT * len(self.clients)
        self.height = len(picture.rows) * ROW

    def lane(self, node: int) -> int:
        """Where a node's lane is, from the left."""
        return self.gutter + 40 + self.spread * node

    def client_lane(self, client: int) -> int:
        """Where a client's lane is: they stand to the right of all nodes."""
        return self.lane(self.picture.nodes - 1) + 124 + CLIENT * client

    def heading(self) -> List[Element]:
        """The names of nodes and clients above their lanes."""
        first, last, count = self.picture.lines
        part = Element("text", {"class": "number", "x": 8, "y": 22}, [f"lines {first} to {last} of {count}"])
        parts = [part] if last - first + 1 < count else []
        parts += [_head(f"head n{node}", self.lane(node), f"n{node}") for node in range(self.picture.nodes)]
        return parts + [_head("head", self.client_lane(client), name) for client, name in enumerate(self.clients)]

    def body(self) -> List[Element]:
        """Everything below the names and above the legend."""
        picture = self.picture
        self._taken = [self._label_room(label) for label in picture.labels]
        self._taken += [self._stub_room(stub) for stub in picture.stubs if stub.label != "heard"]
        parts = [self._client(client) for client in range(len(self.clients))]
        parts += [self._shade(place) for place, row in enumerate(picture.rows) if row.caption]
        parts += [self._side(shade) for shade in picture.shades]
        parts += [self._frame(frame) for frame in picture.frames]
        parts += [self._band(band) for band in picture.bands]
        parts += [self._segment(segment) for segment in picture.segments if segment.role != "Down" and segment.top < segment.bottom]
        parts += [self._stub(stub) for stub in picture.stubs]
        parts += [self._arrow(arrow) for arrow in picture.arrows]
        parts += [self._talk(talk) for talk in picture.talks if self.clients]
        parts += [self._mark(mark) for mark in picture.marks]
        parts += [self._label(label) for label in picture.labels]
        return parts + [self._caption(place, row) if row.caption else self._text(place, row) for place, row in enumerate(picture.rows)]

    def legend(self) -> List[Element]:
        """What the signs mean, in as many lines as the width needs."""
        parts: List[Element] = []
        x, y = 8.0, 24
        for sign, room, name in SIGNS:
            size = room + len(name) * 5.4 + 16
            if x + size > self.width:
                x, y = 8.0, y + 20
            text = Element("text", {"class": "legend", "x": room, "y": 0}, [name])
            parts.append(Element("g", {"transform": f"translate({x:.0f} {y})"}, [*sign, text]))
            x += size
        return parts

    # The parts.

    def _shade(self, place: int) -> Element:
        return _box("shade", 0, place * ROW + 1, self.width, ROW - 2)

    def _side(self, shade: Shade) -> Element:
        x, height = self.lane(shade.node) - self.spread // 2, (shade.bottom - shade.top) * ROW
        return Element("rect", {
            "class": f"parted s{(shade.side - 1) % 3} n{shade.node}", "x": x, "y": f"{shade.top * ROW:.0f}",
            "width": self.spread, "height": f"{height:.0f}",
        }, [Element("title", {}, [f"n{shade.node} is parted from the first side"])])

    def _caption(self, place: int, row: Row) -> Element:
        return Element("text", {"class": "caption", "x": 8, "y": place * ROW + 13}, [cut(row.text, int(self.width / 6.6))])

    def _text(self, place: int, row: Row) -> Element:
        y = place * ROW + 13
        bad = " bad" if row.bad else ""
        node = f" n{row.step.node}" if row.step is not None and row.step.node is not None else ""
        number_at = f"{self.command_at - LETTER:.1f}"
        return Element("g", {"class": f"line k-{row.kind}{node}"}, [
            Element("text", {"class": "number", "x": number_at, "y": y, "text-anchor": "end"}, [str(row.line)]),
            Element("text", {"class": "command", "x": f"{self.command_at:.1f}", "y": y}, [cut(row.text, MOST_COMMAND)]),
            Element("text", {"class": f"reply{bad}", "x": f"{self.reply_at:.1f}", "y": y}, [cut(row.reply, MOST_REPLY)]),
        ])

    def _segment(self, segment: Segment) -> Element:
        x, top, bottom = self.lane(segment.node), segment.top * ROW, segment.bottom * ROW
        role = segment.role.lower()
        if role in ("primary", "draining"):
            return Element("rect", {
                "class": f"{role} n{segment.node}", "x": x - 5, "y": f"{top:.0f}", "width": 10, "height": f"{bottom - top:.0f}",
            })
        return _path(f"{role} n{segment.node}", f"M{x} {top:.0f}V{bottom:.0f}")

    def _band(self, band: Band) -> Element:
        height = (band.bottom - band.top) * ROW
        return Element("rect", {
            "class": f"band c{band.shade % 4} n{band.node}", "x": self.lane(band.node) + 8, "y": f"{band.top * ROW:.0f}",
            "width": 5, "height": f"{height:.0f}",
        }, [Element("title", {}, [f"n{band.node}: commit point {band.commit}"])])

    def _arrow(self, arrow: Arrow) -> Element:
        (x, y), (to_x, to_y) = self._ends(arrow)
        parts = [_path("message lost" if arrow.bad else "message", f"M{x} {y:.0f}L{to_x} {to_y:.0f}")]
        if arrow.head and arrow.bad:
            parts.append(_path("cross", f"M{to_x - 4} {to_y - 4:.0f}l8 8m0 -8l-8 8"))
        elif arrow.head:
            parts.append(self._tip(x, y, to_x, to_y))
        at_x, at_y = self._clear_place(x, y, to_x, to_y, arrow.label)
        place: Attributes = {"x": f"{at_x:.0f}", "y": f"{at_y - 2:.0f}", "text-anchor": "middle"}
        parts.append(Element("text", {"class": "kind", **place}, [arrow.label]))
        return self._group(arrow.kind, arrow.sender, arrow.receiver, parts)

    def _clear_place(self, x: float, y: float, to_x: float, to_y: float, text: str) -> Tuple[float, float]:
        """Where on a line its text stands clear of others: near the head if it can, where lines from one place have parted."""
        half, clear = len(text) * 2.6 + 2, None  # type: Tuple[float, Optional[Tuple[float, float]]]
        for part, below in PLACES:
            at_x, at_y = x + (to_x - x) * part, y + (to_y - y) * part + below
            room = at_x - half, at_y - 10, at_x + half, at_y
            if not any(self._meet(room, other) for other in self._taken):
                clear = at_x, at_y
                self._taken.append(room)
                break
        return clear or (x + (to_x - x) * 0.68, y + (to_y - y) * 0.68)

    @staticmethod
    def _meet(one: Tuple[float, float, float, float], other: Tuple[float, float, float, float]) -> bool:
        return one[0] < other[2] and other[0] < one[2] and one[1] < other[3] and other[1] < one[3]

    def _label_room(self, label: Label) -> Tuple[float, float, float, float]:
        x, y, lines = self.lane(label.node) + 17.0, label.top * ROW, self._label_lines(label)
        return x, y - 3 - 5 * len(lines), x + 5.6 * max(map(len, lines)), y + 5 + 4 * len(lines)

    def _stub_room(self, stub: Stub) -> Tuple[float, float, float, float]:
        x, y, width = self.lane(stub.sender) + 28.0 * stub.side, stub.top * ROW, 16.0 * len(stub.receivers)
        return min(x, x + width * stub.side), y + 9, max(x, x + width * stub.side), y + 19

    def _label_lines(self, label: Label) -> List[str]:
        """The text of a label, on as many lines as it has parts where it doesn't fit beside the next lane."""
        fits = label.node == self.picture.nodes - 1 or len(label.text) * 5.6 < self.spread - 22
        return [label.text] if fits else label.text.split(", ")

    def _client(self, client: int) -> Element:
        return _path("client", f"M{self.client_lane(client)} 0V{self.height}")

    def _talk(self, talk: Talk) -> Element:
        x, to_x, y = self.lane(talk.node) + 6, self.client_lane(talk.client), talk.top * ROW
        place: Attributes = {"x": to_x + 6, "y": f"{y + 3.5:.1f}"}
        return Element("g", {"class": f"n{talk.node}"}, [
            _path("talk", f"M{x} {y:.0f}H{to_x}"),
            _circle("dot", to_x, y, "2.4"),
            Element("text", {"class": "answer bad" if talk.bad else "answer", **place}, [cut(talk.told, MOST_ANSWER)]),
        ])

    def _ends(self, arrow: Arrow) -> Tuple[Tuple[int, float], Tuple[int, float]]:
        side = 1 if arrow.receiver > arrow.sender else -1
        start = self.lane(arrow.sender) + 5 * side
        return (start, arrow.top * ROW), (self.lane(arrow.receiver) - 6 * side, arrow.bottom * ROW)

    @staticmethod
    def _tip(x: float, y: float, to_x: float, to_y: float) -> Element:
        length = max(1.0, ((to_x - x) ** 2 + (to_y - y) ** 2) ** 0.5)
        along_x, along_y = (to_x - x) / length, (to_y - y) / length
        back_x, back_y = to_x - 8 * along_x, to_y - 8 * along_y
        one = f"{back_x - 3.5 * along_y:.1f} {back_y + 3.5 * along_x:.1f}"
        other = f"{back_x + 3.5 * along_y:.1f} {back_y - 3.5 * along_x:.1f}"
        return _path("tip", f"M{to_x} {to_y:.0f}L{one}L{other}z")

    def _stub(self, stub: Stub) -> Element:
        side = stub.side
        x, y = self.lane(stub.sender) + 5 * side, stub.top * ROW
        parts = [_path("stub", f"M{x} {y:.0f}l{20 * side} 9m0 -5v10")]
        if stub.label != "heard":
            text = " ".join(f"n{receiver}" for receiver in stub.receivers)
            place: Attributes = {"x": x + 23 * side, "y": f"{y + 18:.0f}", "text-anchor": "start" if side > 0 else "end"}
            parts.append(Element("text", {"class": "kind", **place}, [text]))
        return self._group(stub.kind, stub.sender, stub.sender, parts)

    @staticmethod
    def _group(kind: str, sender: int, receiver: int, parts: List[Element]) -> Element:
        return Element("g", {"class": f"k-{kind} n{sender} n{receiver}"}, list(parts))

    def _mark(self, mark: Mark) -> Element:
        x, y = self.lane(mark.node), mark.top * ROW
        zigzag = f"M{x - 20} {y:.0f}l6 -5l8 10l8 -10l8 10l8 -10l4 5"
        check = f"M{x - 5} {y:.0f}l4 5l8 -11"
        cross, small = f"M{x - 6} {y - 6:.0f}l12 12m0 -12l-12 12", f"M{x - 4} {y - 4:.0f}l8 8m0 -8l-8 8"
        shapes = {
            "write": [Element("rect", {"class": "square", "x": x - 4, "y": f"{y - 4:.0f}", "width": 8, "height": 8})],
            "acked": [_path("check under", check), _path("check", check)],
            "crash": [_path("cross under", cross), _path("cross", cross)],
            "restart": [_circle("ring", x, y, "4.5")],
            "refused": [_path("cross under", small), _path("cross", small)],
            "cut": [_path("cut under", zigzag), _path("cut", zigzag)],
            "plain": [_circle("dot", x, y, "2.8")],
        }
        return Element("g", {"class": f"k-{mark.kind} n{mark.node}"}, list(shapes[mark.shape]))

    def _label(self, label: Label) -> Element:
        x, lines = self.lane(label.node) + 17, self._label_lines(label)
        y = label.top * ROW + 3.5 - 4.5 * (len(lines) - 1)
        return Element("text", {"class": f"label n{label.node}"}, [
            Element("tspan", {"x": x, "y": f"{y + 9 * place:.1f}"}, [line]) for place, line in enumerate(lines)
        ])

    def _frame(self, frame: Frame) -> Element:
        y, height = frame.top * ROW, (frame.bottom - frame.top) * ROW
        return Element("rect", {
            "class": "frame", "x": 2, "y": f"{y:.0f}", "width": self.width - 4, "height": f"{height:.0f}", "rx": 4,
        })


def _head(name: str, x: int, text: str) -> Element:
    return Element("text", {"class": name, "x": x, "y": 22, "text-anchor": "middle"}, [text])


def _circle(name: str, x: int, y: float, radius: str) -> Element:
    return Element("circle", {"class": name, "cx": x, "cy": f"{y:.0f}", "r": radius})


def cut(text: str, most: int) -> str:
    """The text, shortened to so many characters."""
    return text if len(text) <= most else text[: most - 1] + "…"


def svg_file(picture: Picture, title: str) -> str:
    """A whole SVG, with what each row says where a pointer rests on it."""
    drawing = Drawing(picture)
    height = HEAD + drawing.height + FOOT
    rests = [
        Element("rect", {"x": 0, "y": place * ROW, "width": drawing.width, "height": ROW, "fill": "transparent"},
                [Element("title", {}, [resting(row)])])
        for place, row in enumerate(picture.rows)
        if row.step is not None
    ]
    body = all_markup(drawing.body(), "\n")
    return (
        f'<svg class="run" xmlns="http://www.w3.org/2000/svg" viewBox="0 0 {drawing.width} {height}" '
        f'width="{drawing.width}" height="{height}" role="img">\n{markup(Element("title", {}, [title]))}\n'
        f'<style>\n{STYLE}</style>\n<defs>{markup(HATCH)}</defs>\n<rect width="100%" height="100%" fill="#fff"/>\n'
        f"{all_markup(drawing.heading())}\n"
        f'<g transform="translate(0 {HEAD})">\n{body}\n{all_markup(rests)}\n</g>\n'
        f'<g transform="translate(0 {HEAD + drawing.height})">{all_markup(drawing.legend())}</g>\n</svg>\n'
    )


def resting(row: Row) -> str:
    """What a row says where a pointer rests on it."""
    step = row.step
    change = step.told_change() if step is not None else ""
    return f"{row.line}: {row.text} → {row.reply}" + (f"\n{change}" if change else "")
