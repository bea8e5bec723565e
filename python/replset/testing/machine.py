"""A state machine of Hypothesis that makes failovers happen round an application's own operations.

    class Orders(FailoverMachine):
        @rule(node=NODE)
        def order(self, node): ...

        @invariant()
        def nothing_is_lost(self): ...

    TestOrders = Orders.TestCase

What fails is shrunk to the shortest run; its script is told, and what happened to its data.
"""
from __future__ import annotations

from typing import Any, List, Optional, Tuple
from unittest import SkipTest

from hypothesis import note
from hypothesis import strategies as st
from hypothesis.control import current_build_context
from hypothesis.stateful import RuleBasedStateMachine, precondition, rule

from ..faults import NoLibrary, Stopped
from ..sets import Set

#: A node of the machine's set, and two that differ.
NODE: Any = st.runner().flatmap(lambda machine: st.integers(0, machine.nodes - 1))
PAIR: Any = st.runner().flatmap(lambda machine: st.permutations(range(machine.nodes)).map(lambda order: tuple(order[:2])))
#: Which message of those that are there.
PLACE: Any = st.integers(0, 1000)


class FailoverMachine(RuleBasedStateMachine):
    """Deliveries, losses, repeats, crashes and elections as rules. `self.set` is the set, which operations
    step too."""

    #: How many nodes the set has, and the file that a failing run is drawn into.
    nodes = 3
    picture: Optional[str] = None

    def __init__(self) -> None:
        super().__init__()
        try:
            self.set = Set(self.nodes)
        except NoLibrary as fault:
            raise SkipTest(str(fault)) from None
        self._known = 0
        self._on_the_way: List[int] = []

    def waiting(self) -> List[int]:
        """The messages that were sent, and neither delivered nor lost."""
        new = self.set.messages(self._known)
        self._known += len(new)
        self._on_the_way += [message.number for message in new]
        return self._on_the_way

    def down(self, node: int) -> bool:
        """Whether a node is down."""
        return self.set.look(f"state n{node}").refused

    def macro(self, line: str) -> bool:
        """Plays a macro as far as it can go on. Gives whether it did."""
        try:
            self.set.play([line])
        except Stopped:
            return False
        return True

    # Messages.

    @precondition(lambda self: bool(self.waiting()))
    @rule(place=PLACE)
    def deliver(self, place: int) -> None:
        """A message arrives."""
        waiting = self.waiting()
        self.set.deliver(waiting.pop(place % len(waiting)))

    @precondition(lambda self: bool(self.waiting()))
    @rule(place=PLACE)
    def lose(self, place: int) -> None:
        """A message never arrives."""
        waiting = self.waiting()
        waiting.pop(place % len(waiting))

    @precondition(lambda self: bool(self.waiting() or self._known))
    @rule(place=PLACE)
    def repeat(self, place: int) -> None:
        """A message arrives once more, or late."""
        self.set.deliver(place % self._known)

    @rule(pair=PAIR)
    def heartbeat(self, pair: Tuple[int, int]) -> None:
        """One node tells another where it stands."""
        self.set.heartbeat(*pair)

    @rule(node=NODE)
    def fetch(self, node: int) -> None:
        """A node asks for entries."""
        self.set.fetch(node)

    @rule(pair=PAIR)
    def report(self, pair: Tuple[int, int]) -> None:
        """A node tells another how far it is durable."""
        self.set.report(*pair)

    @rule(node=NODE)
    def pull(self, node: int) -> None:
        """A node catches up with the primary that it hears."""
        self.macro(f"pull n{node}")

    # Disks.

    @rule(node=NODE)
    def flush(self, node: int) -> None:
        """A node stores entries in its journal."""
        self.set.flush(node)

    @rule(node=NODE)
    def apply(self, node: int) -> None:
        """A node applies entries to its documents."""
        self.set.apply(node)

    @rule(node=NODE)
    def crash(self, node: int) -> None:
        """The power fails at a node."""
        self.set.crash(node)

    @rule(node=NODE)
    def restart(self, node: int) -> None:
        """A node that is down comes back."""
        self.set.restart(node)

    # Elections.

    @rule(node=NODE)
    def elect(self, node: int) -> None:
        """A node is elected, where enough others hear it and vote for it."""
        self.macro(f"elect n{node}")

    @rule(node=NODE)
    def campaign(self, node: int) -> None:
        """A node asks for votes."""
        self.set.campaign(node)

    @rule(node=NODE)
    def drain(self, node: int) -> None:
        """A winner becomes primary."""
        self.set.drain(node)

    @rule(node=NODE)
    def stepdown(self, node: int) -> None:
        """A primary becomes a secondary."""
        self.set.stepdown(node)

    def teardown(self) -> None:
        """Tells the run where it is what a failure was shrunk to."""
        if current_build_context().is_final:
            note(self.set.told())
            for name in [verdict.name for verdict in self.set.verdicts()[:1]]:
                note(f"the shortest script with the verdict {name}:\n{self.set.shortest(name).script()}")
            if self.picture is not None:
                self.set.picture(self.picture)
                note(f"picture: {self.picture}")
        self.set.close()
