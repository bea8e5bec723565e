"""All that may happen round a script: deliveries that are lost, come twice or in another order, and nodes that crash."""
from __future__ import annotations

from itertools import combinations, permutations
from typing import Dict, Iterator, List, NamedTuple, Sequence, Set, Tuple, Union

from .errors import WORDS, LabError
from .expand import Expanded
from .script import SetSize, is_silent, words_of
from .show import printable

KINDS = ("drop", "repeat", "swap", "crash", "bounce")
#: Those that are about a delivery.
_DELIVERED = ("drop", "repeat", "swap")

#: Orders of more lines than these are too many.
MOST_ORDERED = 8

#: A line of the script by its place, or one that is put in.
Token = Union[int, str]


class Change(NamedTuple):
    """One change to a script, after or at the line at `place`: `swap` has another place, and a crash its node."""

    kind: str
    place: int
    other: int = 0

    def told(self, script: Expanded) -> str:
        """What it is, for people."""
        name = _named(script, self.place)
        return {
            "drop": f"{name}: lost",
            "repeat": f"{name}: twice",
            "swap": f"{name}: after {_named(script, self.other) if self.kind == 'swap' else ''}",
            "crash": f"{name}: n{self.other} crashes after it",
            "bounce": f"{name}: n{self.other} crashes after it and comes back",
        }[self.kind]

    def rests_on(self, other: "Change") -> bool:
        """Whether another change loses the delivery after which this one has its own."""
        return self.kind == "swap" and other.kind == "drop" and self.other == other.place

    def apply(self, order: List[Token]) -> None:
        """Changes the script, whose lines stand there by their places."""
        at = order.index(self.place)
        if self.kind == "drop":
            del order[at]
        elif self.kind == "repeat":
            order.insert(at, self.place)
        elif self.kind == "swap":
            del order[at]
            order.insert(order.index(self.other) + 1, self.place)
        else:
            order[at + 1 : at + 1] = [f"crash n{self.other}"] + ([f"restart n{self.other}"] if self.kind == "bounce" else [])


class Faults(NamedTuple):
    """A variation by one change or several at once."""

    changes: Tuple[Change, ...]

    def told(self, script: Expanded) -> str:
        """What it is, for people."""
        return "; and ".join(change.told(script) for change in self.changes)

    def order(self, count: int) -> List[Token]:
        """The script of so many lines as it is then."""
        order: List[Token] = list(range(count))
        for change in self.changes:
            change.apply(order)
        return order


class Order(NamedTuple):
    """A variation in which some lines of the file stand in another order: each one's places, and whose each place is then."""

    groups: Tuple[Tuple[int, ...], ...]
    taken: Tuple[int, ...]

    def told(self, script: Expanded) -> str:
        """What it is, for people."""
        lines = [str(script.source[self.groups[one][0]]) for one in self.taken]
        return "in the order of lines " + ", ".join(lines)

    def order(self, count: int) -> List[Token]:
        """The script of so many lines as it is then."""
        first = {group[0]: self.groups[one] for group, one in zip(self.groups, self.taken)}
        moved = {place for group in self.groups for place in group}
        order: List[Token] = []
        for place in range(count):
            order += first.get(place, () if place in moved else (place,))
        return order


Variation = Union[Faults, Order]


def lines_of(order: Sequence[Token], lines: Sequence[str]) -> Tuple[List[str], List[int]]:
    """The changed lines, and of each the number of the line that it was, or 0 for one that was put in."""
    changed = [token if isinstance(token, str) else lines[token] for token in order]
    return changed, [0 if isinstance(token, str) else token + 1 for token in order]


def faults(lines: Sequence[str], size: SetSize, kinds: Sequence[str], most: int) -> Iterator[Faults]:
    """The variations by one change of the wanted kinds, in the order of the script's lines; then those by two, and so on."""
    single = list(_changes(lines, size, kinds))
    apart = _apart(single)
    for count in range(1, most + 1):
        some = (one for one in combinations(range(len(single)), count) if apart.isdisjoint(combinations(one, 2)))
        yield from (Faults(tuple([single[place] for place in one])) for one in some)


def _apart(changes: Sequence[Change]) -> Set[Tuple[int, int]]:
    """Which two of the changes don't go together, by their places here."""
    of_line: Dict[int, List[int]] = {}
    for place, change in enumerate(changes):
        for line in {change.place, change.other if change.kind == "swap" else change.place}:
            of_line.setdefault(line, []).append(place)
    pairs = (pair for some in of_line.values() for pair in combinations(some, 2))
    return {(one, other) for one, other in pairs if not _fit_both(changes[one], changes[other])}


def _fit_both(one: Change, other: Change) -> bool:
    """Whether two changes aren't of one line's delivery, and neither rests on one that is lost."""
    if one.place == other.place:
        return "drop" not in (one.kind, other.kind) and not (one.kind in _DELIVERED and other.kind in _DELIVERED)
    return not (one.rests_on(other) or other.rests_on(one))


def _changes(lines: Sequence[str], size: SetSize, kinds: Sequence[str]) -> Iterator[Change]:
    places = _places(lines)
    deliveries = [place for place in places if words_of(lines[place])[0] == "deliver"]
    following: Dict[int, int] = dict(zip(deliveries, deliveries[1:]))
    known = set(deliveries)
    for place in places:
        if place in known:
            yield from (Change(kind, place) for kind in ("drop", "repeat") if kind in kinds)
            if place in following and "swap" in kinds:
                yield Change("swap", place, following[place])
        for node in range(size.nodes):
            yield from (Change(kind, place, node) for kind in ("crash", "bounce") if kind in kinds)


def orders(script: Expanded, numbers: Sequence[int]) -> Iterator[Order]:
    """Each order but the present one of these lines of the file, with all lines that a macro came to."""
    if not 2 <= len(set(numbers)) <= MOST_ORDERED:
        raise LabError(WORDS, f"--orders takes 2 to {MOST_ORDERED} lines of the file, each once")
    in_blocks = set(range(len(script.lines))) - set(_places(script.lines))
    groups = []
    for number in sorted(set(numbers)):
        places = tuple(place for place, origin in enumerate(script.source) if origin == number)
        said = [place for place in places if not is_silent(script.lines[place])]
        if not said or words_of(script.lines[said[0]])[0] == "set" or in_blocks & set(said):
            raise LabError(WORDS, f"--orders {number}: that is no command outside a block that can be moved")
        groups.append(places)
    for taken in permutations(range(len(groups))):
        if list(taken) != sorted(taken):
            yield Order(tuple(groups), taken)


def _places(lines: Sequence[str]) -> List[int]:
    """The places of commands outside blocks."""
    places, in_block = [], False
    for place, line in enumerate(lines):
        word = "" if is_silent(line) else words_of(line)[0]
        in_block = word == "par" or (in_block and word != "end")
        if word and not in_block:
            places.append(place)
    return places


def _named(script: Expanded, place: int) -> str:
    return f"line {script.number(place + 1)}, {shortened(script.lines[place])}"


def shortened(text: str) -> str:
    """A text on one line, of no more than 70 characters."""
    text = printable(text.replace("\n", "; "))
    return text if len(text) <= 70 else text[:69] + "…"
