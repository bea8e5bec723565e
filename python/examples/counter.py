"""A counter whose client asks again where it heard no answer.

The answer to an increment gets lost, or its primary does. Asked again without a session, the counter goes up
twice. As a session's write of a number it goes up once, at whichever primary it is asked for.
"""
from __future__ import annotations

from typing import Callable

from replset import Set, update
from replset.replies import Found, Reply

UP = {"$inc": {"visits": 1}}

#: Asks a node for the increment.
Ask = Callable[[Set, int], Reply]


def plain(s: Set, node: int) -> Reply:
    """Without a session."""
    return s.update(node, "pages", "home", UP)


def in_session(s: Set, node: int) -> Reply:
    """As the first write of session 7."""
    return s.retry(node, 7, 1, update("pages", "home", UP))


def opened() -> Set:
    """A set with a counter that all nodes have."""
    s = Set(nodes=3)
    s.elect(0)
    s.insert(0, "pages", {"_id": "home", "visits": 0})
    s.spread(0)
    return s


def visits(s: Set, node: int) -> int:
    """Where the counter stands."""
    found = s.read(node, "pages", "home")
    assert isinstance(found, Found)
    return int(found.document["visits"])


def lost_answer(ask: Ask) -> int:
    """The primary is fine, and only its answer gets lost."""
    with opened() as s:
        ask(s, 0)
        ask(s, 0)
        return visits(s, 0)


def lost_primary(ask: Ask, fetched: bool) -> int:
    """The primary crashes with the answer, before or after another node fetched the entry."""
    with opened() as s:
        ask(s, 0)
        if fetched:
            s.pull(1)
        s.crash(0)
        s.elect(1)
        ask(s, 1)
        return visits(s, 1)


def main() -> None:
    """All ways to lose an answer, without a session and in one."""
    for name, ask in (("plain", plain), ("in a session", in_session)):
        counts = [lost_answer(ask), lost_primary(ask, fetched=True), lost_primary(ask, fetched=False)]
        print(f"{name}: the counter goes to {counts}")
        assert counts == ([2, 2, 1] if ask is plain else [1, 1, 1])


if __name__ == "__main__":
    main()
