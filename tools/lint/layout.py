"""Breaks a line of antt's text where a reader would: as far outside as it can be. What fits on its line is never broken."""
from terms import AFTER_EQUALS, AFTER_IN, AFTER_LAMBDA, LONE_LAMBDA, Bracket, Fields, Head, Row, Text, parsed

# What more there is to pay, beside what `terms.py` says of each break.
RECORD = 24  # a field of a record, or a part of a tuple, to a line
INSIDE = 12  # a piece that is broken, though more stands after it on its line
GOES_ON = 14  # what stands on a line after a piece that was broken
DEEPER = 1.3  # for each level
SHORT, SHORT_LINE = 18, 9  # a last line that is shorter
EMPTY = 1 / 30  # each column that is left over where a line ends


class Layout:
    """Lays out a tree within so many columns. What continues the item begins in column `deeper`."""

    def __init__(self, width):
        self.width = width

    def lay(self, node, column, tail, line, deeper):
        """What the layout of a tree costs, and its text. It begins in this column of a line with the indent `line`, and
        `tail` more columns have to fit after it."""
        if column + len(node.flat) + tail <= self.width:
            return 0, node.flat
        if isinstance(node, Text):
            return self.overflow(column + len(node.flat) + tail), node.flat
        if isinstance(node, Bracket):
            cost, text = self.lay(node.inner, column + len(node.opening), tail + len(node.closing), line, deeper)
            return cost, node.opening + text + node.closing
        if isinstance(node, Head):
            return self.lay_head(node, column, tail, line, deeper)
        if isinstance(node, Fields):
            return self.lay_fields(node, column, line)
        return self.lay_row(node, column, tail, line, deeper)

    def lay_head(self, node, column, tail, line, deeper):
        cost = node.cost + self.overflow(column + len(node.head))
        if node.cost == AFTER_LAMBDA and column - line < 3:
            cost = LONE_LAMBDA
        below = self.lay(node.body, deeper, tail, deeper, deeper)
        below = below[0] + cost, node.head + "\n" + " " * deeper + below[1]
        if isinstance(node.body, Row) and node.body.kind in ("choice", "let") and node.cost == AFTER_EQUALS:
            return below
        beside = self.lay(node.body, column + len(node.head) + 1, tail, line, deeper)
        beside = beside[0] + (1 if node.cost < AFTER_IN else 0), node.head + " " + beside[1]
        return min(below, beside, key=lambda it: it[0])

    def overflow(self, end):
        return 1000 + 10 * (end - self.width) if end > self.width else 0

    def lay_fields(self, node, column, line):
        cost, texts = RECORD + self.overflow(column + len(node.opening)), []
        for field in node.fields:
            more, text = self.lay(field, line + 2, 1, line + 2, line + 6)
            cost += more * DEEPER
            texts.append(" " * (line + 2) + text + node.mark)
        return cost, node.opening + "\n" + "\n".join(texts) + "\n" + " " * line + node.closing

    def lay_row(self, node, column, tail, line, deeper):
        parts, known = node.parts, {}

        def rest(at, column, line, was_broken):
            """The parts from this one on, after a text that ends in this column."""
            if at == len(parts):
                return 0, ""
            key = at, column, line, was_broken
            if key not in known:
                ways = []
                if at == 0 or not (node.kind == "choice" and parts[at][0].startswith("else")):
                    extra = GOES_ON if was_broken else 0
                    ways.append(put(at, column + (1 if at else 0), line, extra, " " if at else ""))
                if at > 0:
                    # Where nothing else tells, a line is filled.
                    ways.append(put(at, deeper, deeper, parts[at][3] + (self.width - column) * EMPTY, "\n" + " " * deeper))
                known[key] = min(ways, key=lambda it: it[0])
            return known[key]

        def put(at, start, line, cost, before):
            lead, tree, trail, _ = parts[at]
            lead = lead + " " if lead else ""
            is_last = at + 1 == len(parts)
            column = start + len(lead)
            own, text = self.lay(tree, column, len(trail) + (tail if is_last else 0), line, deeper)
            is_broken = "\n" in text
            if is_broken:
                hangs = is_last and text[:text.index("\n")].endswith((".", "{", "("))
                own = own * DEEPER + (0 if hangs or before.startswith("\n") else INSIDE)
                end = len(text) - text.rindex("\n") - 1
                line = end - len(text[text.rindex("\n") + 1:].lstrip())
            else:
                end = column + len(text)
            if is_last and before.startswith("\n") and not is_broken and len(lead) + len(text) + len(trail) + tail < SHORT:
                own += SHORT_LINE
            more, after = rest(at + 1, end + len(trail), line, is_broken)
            return cost + own + more, before + lead + text + trail + after

        return rest(0, column, line, False)


def broken(text, indent, deeper, width):
    """A line with this indent as lines that fit, the others with the indent `deeper`. Blanks that are \\0 stay."""
    made = parsed(text)
    if made.flat != " ".join(text.split(" ")):
        return None
    _, laid = Layout(width).lay(made, indent, 0, indent, deeper)
    return (" " * indent + laid).split("\n")
