"""Reads a line of antt's text, a definition's or a clause's, into a tree of brackets, operators and arguments.

What a break costs at each place stands in one table; `layout.py` takes the cheapest way. `rt fmt` keeps line breaks, and
puts what continues an item four columns deeper than the item, at whatever depth it stands. So only the places are chosen.
"""
import re

# From those that hold the most to those that bind closest, and what a break before one costs.
OPERATORS = [
    (("→",), 10),
    (("⊎",), 10),
    (("×",), 10),
    (("↔",), 11),
    (("≡", "≢", "≤", "<", "≥", ">"), 14),
    (("||",), 11),
    (("&&",), 11),
    (("==",), 18),
    ((">>=", ">>"), 12),
    (("++",), 13),
    (("∷",), 16),
    (("+", "-"), 20),
    (("*", "/", "%"), 24),
    (("^",), 40),
]
AFTER_EQUALS = 3  # after the `=` of a definition
AFTER_COLON = 20  # after the `:` of a signature or a field
AFTER_LAMBDA = 5  # after `λ x.`
LONE_LAMBDA = 14  # after one with which its line begins, or before which its function has another long argument
BEFORE_ELSE = 9
BEFORE_THEN = 12
AFTER_IN = 6
ARGUMENT = 14  # before an argument in brackets
WORD_ARGUMENT = 20  # before one that is a word
FIRST_ARGUMENT = 30  # after the function's own name
PARAMETER = 16  # before a parameter of a record
RESULT = 12  # before its `: Type 0 where`
NEVER = 10000
BINDER = -2  # more before `(x : A)`
AFTER_BINDER = 4  # more after one

TOKEN = re.compile(r'(\s+)|("(?:\\.|[^"\\])*")|([(){}\[\],;])|([^\s(){}\[\],;"]+)')
CLOSING = {"(": ")", "[": "]", "{": "}"}


# ---- reading

class Piece:
    """What has no blank outside of brackets: texts and groups."""

    def __init__(self):
        self.parts = []

    @property
    def word(self):
        return self.parts[0] if len(self.parts) == 1 and isinstance(self.parts[0], str) else None


class Group:
    """Pieces in brackets, of which one may stand on another line."""

    def __init__(self, opening):
        self.opening, self.pieces, self.closing = opening, [], ""


def read(text):
    """The pieces of a text."""
    stack, blank = [Group("")], True
    for space, string, mark, word in TOKEN.findall(text):
        if space:
            blank = True
            continue
        if mark in CLOSING.values() and mark:
            if len(stack) == 1:  # What it closes begins on a line before.
                inner, outer = stack.pop(), Group("")
                piece = Piece()
                piece.parts.append(inner)
                outer.pieces.append(piece)
                inner.closing = (" " if blank and inner.pieces else "") + mark
                stack.append(outer)
            else:
                inner = stack.pop()
                inner.closing = (" " if blank and inner.pieces else "") + mark
            blank = False
            continue
        pieces = stack[-1].pieces
        if blank or not pieces:
            pieces.append(Piece())
        if mark in CLOSING:
            group = Group(mark)
            pieces[-1].parts.append(group)
            stack.append(group)
            blank = False
        else:
            pieces[-1].parts.append(string or mark or word)
            blank = False
    return stack[0].pieces


# ---- trees

class Text:
    def __init__(self, flat):
        self.flat = flat


class Bracket:
    """A tree in brackets."""

    def __init__(self, opening, inner, closing):
        self.opening, self.inner, self.closing = opening, inner, closing
        self.flat = opening + inner.flat + closing


class Row:
    """Parts, each with what stands before it on its line, what stands after it, and what a break before it costs."""

    def __init__(self, parts, kind):
        self.parts, self.kind = parts, kind
        texts = [(lead + " " if lead else "") + tree.flat + trail for lead, tree, trail, _ in parts]
        self.flat = " ".join(text for text in texts if text)


class Head:
    """What stands first on its line, and a tree that may begin on the next."""

    def __init__(self, head, body, cost):
        self.head, self.body, self.cost = head, body, cost
        self.flat = head + (" " + body.flat if body.flat else "")


class Fields:
    """The fields of a record, or the parts of a tuple. `rt fmt` puts each on a line where one line is broken."""

    def __init__(self, opening, fields, mark, closing):
        self.opening, self.fields, self.mark, self.closing = opening, fields, mark, closing.strip()
        blank = " " if mark == ";" else ""
        self.flat = opening + blank + f"{mark} ".join(field.flat for field in fields) + blank + self.closing


def flat(pieces):
    return " ".join(flat_piece(piece) for piece in pieces)


def flat_piece(piece):
    return "".join(part if isinstance(part, str) else flat_group(part) for part in piece.parts)


def flat_group(group):
    inner = flat(group.pieces)
    blank = " " if group.opening == "{" and inner and group.closing.startswith(" ") else ""
    return group.opening + blank + inner + group.closing


def tree_of_piece(piece):
    """A piece's last group may be broken; what stands before it doesn't move."""
    groups = [at for at, part in enumerate(piece.parts) if isinstance(part, Group) and part.pieces and part.opening != "["]
    if not groups:
        return Text(flat_piece(piece))
    at = max(groups, key=lambda k: len(flat_group(piece.parts[k])))
    group, before, after = piece.parts[at], Piece(), Piece()
    before.parts, after.parts = piece.parts[:at], piece.parts[at + 1:]
    opening, closing = flat_piece(before) + group.opening, group.closing + flat_piece(after)
    if group.opening == "{" and group.closing.startswith(" "):
        if place(group.pieces, ("=",)) is not None:
            return Fields(opening, fields(group.pieces, ";"), ";", closing)
        opening += " "
    elif commas(group.pieces):
        return Fields(opening, fields(group.pieces, ","), ",", closing)
    return Bracket(opening, tree(group.pieces), closing)


def commas(pieces):
    """Where a tuple's parts end."""
    found = []
    for at, piece in enumerate(pieces):
        if piece.word and (piece.word.startswith("λ") or piece.word in ("let", "if")):
            break
        if ends_with(piece, ",") and at + 1 < len(pieces):
            found.append(at)
    return found


def ends_with(piece, mark):
    last = piece.parts[-1]
    return isinstance(last, str) and last.endswith(mark) and not last.startswith('"')


def place(pieces, words):
    """Where the first of these words stands outside of a function's body."""
    for at, piece in enumerate(pieces):
        if piece.word == "λ" or piece.word == "let" and at > 0:
            return None
        if piece.word in words:
            return at
    return None


def tree(pieces):
    """The tree of pieces that stand side by side."""
    if not pieces:
        return Text("")
    first = pieces[0].word
    if first == "λ" or first and first.startswith("λ"):
        ends = [at for at, piece in enumerate(pieces) if ends_with(piece, ".")]
        if ends:
            return Head(flat(pieces[:ends[0] + 1]), tree(pieces[ends[0] + 1:]), AFTER_LAMBDA)
    if first == "let":
        ends = [at for at, piece in enumerate(pieces) if piece.word == "in"]
        if ends:
            value = Bracket("", equation(pieces[:ends[0]]), " in")
            return Row([("", value, "", 0), ("", tree(pieces[ends[0] + 1:]), "", AFTER_IN)], "let")
    if first in ("if", "then", "else"):
        return choice(pieces)
    for words, cost in OPERATORS:
        places = operator_places(pieces, words)
        if places:
            return chain(pieces, places, cost)
    return applied(pieces)


def operator_places(pieces, words):
    """Where these operators stand, but for those in the body of a function or a choice, which goes on to the end."""
    places = []
    for at, piece in enumerate(pieces):
        word = piece.word or ""
        if word.startswith("λ") or word in ("let", "if"):
            break
        if word in words:
            places.append(at)
    return places


def chain(pieces, places, cost):
    parts, starts = [], [None, *places]
    for at, start in enumerate(starts):
        end = starts[at + 1] if at + 1 < len(starts) else len(pieces)
        lead = pieces[start].word if start is not None else ""
        inner = pieces[(start + 1 if start is not None else 0):end]
        if start is None and not inner:
            continue
        parts.append((lead, tree(inner), "", cost))
    is_binder = [re.match(r"\([\w' ]+ : ", part[1].flat) is not None for part in parts]
    for at in range(1, len(parts)):
        more = (BINDER if is_binder[at] else 0) + (AFTER_BINDER if is_binder[at - 1] else 0)
        parts[at] = (*parts[at][:3], cost + more)
    return Row(parts, "chain")


def choice(pieces):
    """`if a then b else if c then d else e`."""
    parts, start, depth, lead = [], 0, 0, []
    at = 0
    marks = []
    while at < len(pieces):
        word = pieces[at].word
        if word in ("if", "then", "else"):
            both = word == "else" and at + 1 < len(pieces) and pieces[at + 1].word == "if"
            marks.append((at, 2 if both else 1, word))
            at += 2 if both else 1
        elif word and word.startswith("λ"):
            break
        else:
            at += 1
    for k, (start, long, word) in enumerate(marks):
        end = marks[k + 1][0] if k + 1 < len(marks) else len(pieces)
        lead = " ".join(piece.word for piece in pieces[start:start + long])
        parts.append((lead, tree(pieces[start + long:end]), "", BEFORE_THEN if word == "then" else BEFORE_ELSE))
    return Row(parts, "choice")


def applied(pieces):
    """A function with its arguments; `record x { .. }` is one of them."""
    parts, at = [], 0
    while at < len(pieces):
        piece = pieces[at]
        word = piece.word or ""
        if word == "record":
            end = next((k for k in range(at, len(pieces)) if braces(pieces[k])), None)
            if end is not None:
                body = tree_of_piece(pieces[end])
                if isinstance(body, Fields):
                    body = Fields(flat(pieces[at:end]) + " " + body.opening, body.fields, ";", body.closing)
                else:
                    body = Text(flat(pieces[at:end + 1]))
                parts.append(("", body, "", ARGUMENT))
                at = end + 1
                continue
        if word.startswith("λ") or word in ("let", "if"):
            parts.append(("", tree(pieces[at:]), "", ARGUMENT))
            break
        made = tree_of_piece(piece)
        is_equals = word == "=" or at > 0 and pieces[at - 1].word == "="
        parts.append(("", made, "", NEVER if is_equals else WORD_ARGUMENT if isinstance(made, Text) else ARGUMENT))
        at += 1
    if len(parts) == 1:
        return parts[0][1]
    if parts[1][3] < NEVER and isinstance(parts[0][1], Text):
        parts[1] = (*parts[1][:3], FIRST_ARGUMENT)
    last = parts[-1][1]
    if isinstance(last, Bracket) and isinstance(last.inner, Head) and any(isinstance(it[1], Bracket) for it in parts[:-1]):
        last.inner.cost = max(last.inner.cost, LONE_LAMBDA)
    return Row(parts, "applied")


def braces(piece):
    return piece.parts and isinstance(piece.parts[0], Group) and piece.parts[0].opening == "{"


def fields(pieces, mark):
    """The fields of a record, `a = b; c = d`, or the parts of a tuple."""
    found, start = [], 0
    ends = commas(pieces) if mark == "," else [at for at, piece in enumerate(pieces) if ends_with(piece, ";")]
    if not ends or ends[-1] + 1 < len(pieces):
        ends.append(len(pieces) - 1)
    for at in ends:
        found.append(equation(without_mark(pieces[start:at + 1], mark)))
        start = at + 1
    return found


def without_mark(pieces, mark):
    """The pieces without this mark at their end."""
    if not ends_with(pieces[-1], mark):
        return pieces
    last = Piece()
    last.parts = pieces[-1].parts[:-1] + ([pieces[-1].parts[-1][:-1]] if pieces[-1].parts[-1] != mark else [])
    return [*pieces[:-1], last] if last.parts else pieces[:-1]


def equation(pieces):
    at = place(pieces, ("=",))
    if at is None:
        return tree(pieces)
    return Head(flat(pieces[:at + 1]), tree(pieces[at + 1:]), AFTER_EQUALS)


# ---- lines

HEADER = re.compile(r"^(?:abbrev )?(?:pub )?(?:record|module|data)\b.* where$")
CLAUSE = re.compile(r"^(?:requires|ensures|ghost)\b[^{]*\{ ")


def parsed(text):
    """The tree of a line without its indent."""
    clause = CLAUSE.match(text)
    if clause:
        pieces = read(text[clause.end():])
        return Head(clause.group().rstrip(), tree(pieces), 10000)
    pieces = read(text)
    if HEADER.match(text):
        first = next((at for at, piece in enumerate(pieces) if braces(piece) or piece.word is None), len(pieces))
        colon = next((at for at, piece in enumerate(pieces) if piece.word == ":"), len(pieces))
        parts = [("", Text(flat(pieces[:first])), "", 0)]
        parts += [("", Text(flat_piece(piece)), "", PARAMETER) for piece in pieces[first:colon]]
        if colon < len(pieces):
            parts.append(("", Text(flat(pieces[colon:])), "", RESULT))
        return Row(parts, "header")
    last = pieces[-1]
    if ends_with(last, ";"):
        made = equation(without_mark(pieces, ";"))
        return Bracket("", made, ";")
    where = []
    if last.word == "where":
        pieces, where = pieces[:-1], [last]
    colon, equals = place(pieces, (":",)), place(pieces, ("=",))
    mapped = place(pieces, ("↦",))
    if mapped is not None and equals is None and (pieces[0].word or "").startswith("|"):
        made = Head(flat(pieces[:mapped + 1]), tree(pieces[mapped + 1:]), AFTER_EQUALS)
    elif equals is not None and (colon is None or equals < colon):
        made = Head(flat(pieces[:equals + 1]), tree(pieces[equals + 1:]), AFTER_EQUALS)
    elif colon is not None:
        made = Head(flat(pieces[:colon + 1]), tree(pieces[colon + 1:]), AFTER_COLON)
    else:
        made = tree(pieces)
    return Bracket("", made, " where") if where else made
