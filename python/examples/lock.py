"""A lock as a document, and clients who read it at a node that nobody hears any more.

The lock passes from Ada to Ben at the new primary. The old one, cut off, still says that it is Ada's, at
`local` and at `majority`. A linearizable read there is refused, and so is a write that takes the lock at
majority.
"""
from __future__ import annotations

from replset import Set, Stopped
from replset.replies import Found


def owner(s: Set, node: int, level: str) -> str:
    """Whose the lock is, as a node tells it."""
    found = s.read(node, "locks", "deploy", level)
    assert isinstance(found, Found)
    return str(found.document["owner"])


def linear(s: Set, node: int) -> str:
    """The same by a linearizable read: its answer, as a comment of the script tells it."""
    s.play([f'linear n{node} locks "deploy"'])
    return s.lines()[-1]


def main() -> None:
    """The lock's story."""
    with Set(nodes=3) as s:
        s.elect(0)
        taken = s.insert(0, "locks", {"_id": "deploy", "owner": "Ada"})
        s.wait_for(0, taken)
        s.spread(0)
        s.partition([0], [1, 2])
        s.elect(1)
        passed = s.replace(1, "locks", "deploy", {"owner": "Ben"})
        s.wait_for(1, passed)
        s.spread(1)
        for node in (0, 1):
            print(f"n{node}: local {owner(s, node, 'local')}, majority {owner(s, node, 'majority')}, {linear(s, node)}")
        assert owner(s, 0, "majority") == "Ada" and owner(s, 1, "majority") == "Ben"
        assert "Waiting" in linear(s, 0) and "Ben" in linear(s, 1)
        # Ada's client still believes in its lock. What it writes under it is never acknowledged.
        work = s.insert(0, "jobs", {"_id": 1, "by": "Ada"})
        assert not work.refused
        try:
            s.wait_for(0, work)
        except Stopped as stopped:
            print(f"Ada's work isn't acknowledged: {stopped.why}")
        assert "stale-read" in {verdict.name for verdict in s.verdicts()}


if __name__ == "__main__":
    main()
