"""An outbox: an order and the message that tells of it are one document, and a relay sends what stands there.

The shop thanks its customer once the write is acknowledged. Then the primary crashes. At `w: 1` the customer
was thanked for an order of which nobody ever hears; at majority that can't happen.
"""
from __future__ import annotations

from typing import List, Tuple, Union

from replset import Set
from replset.replies import Documents

Concern = Union[int, str]


def order(s: Set, primary: int, number: int, concern: Concern) -> bool:
    """Takes an order. Gives whether the customer was thanked."""
    written = s.insert(primary, "orders", {"_id": number, "outbox": {"to": "warehouse", "sent": False}})
    s.flush(primary)
    return not written.refused and not s.ack(primary, written, concern).refused


def relay(s: Set, primary: int) -> List[int]:
    """Sends what stands in the outbox, and gives the orders that were told of."""
    found = s.dump(primary, "majority")
    assert isinstance(found, Documents)
    return [document["_id"] for document in found.of("orders") if not document["outbox"]["sent"]]


def failover(concern: Concern, thanks_late: bool) -> Tuple[bool, List[int]]:
    """An order, and a crash before anybody fetched it; or, where the shop can wait, after."""
    with Set(nodes=3) as s:
        s.elect(0)
        s.spread(0)
        thanked = order(s, 0, 1, concern)
        if thanks_late and not thanked:
            s.wait_for(0)
            thanked = True
        s.crash(0)
        s.elect(1)
        s.spread(1)
        return thanked, relay(s, 1)


def main() -> None:
    """Both, side by side."""
    cases: List[Tuple[Concern, bool]] = [(1, False), ("majority", False), ("majority", True)]
    for concern, late in cases:
        thanked, sent = failover(concern, late)
        print(f"w: {concern}{', waited for' if late else ''}: thanked {thanked}, sent {sent}")
        lost = thanked and 1 not in sent
        assert lost == (concern == 1)


if __name__ == "__main__":
    main()
