"""The macros of short scripts, and how each becomes lines of a plain one.

A macro reads the replies as it goes, since what comes next depends on them: a fetch chooses its source, a log that has
parted is rolled back, a vote may be refused. A line that would be refused is left out.
"""
from __future__ import annotations

import re
from typing import Callable, Dict, List, Optional, Tuple

from .asking import Asking, is_document
from .errors import MACRO, LabError
from .living import Living
from .player import Player
from .script import node_number
from .state import Optime
from .typed import is_foreign, translated

#: How often a candidate tries, where a voter was in a later term.
CAMPAIGNS = 3

#: A line is repeated at most so often.
MOST_REPEATS = 100_000

#: So often members do something in one `tick`.
MOST_TICKS = 1_000

#: The words of each macro, as help shows them.
FORMS = {
    "elect": "elect A [B ..]",
    "pull": "pull A [B]",
    "spread": "spread A",
    "partition": "partition A .. | B ..",
    "heal": "heal",
    "await": "await A OPTIME [CONCERN]",
    "repeat": "repeat COUNT LINE",
    "linear": "linear A COLL ID",
    "watch": "watch COLL TOKEN A ..",
    "sync": "sync A",
    "status": "status",
    "tick": "tick COUNT SEED",
    "notation": "notation own | mongosh",
}


#: The sides of a partition, up to where each named stream has told, and whether documents are mongosh's.
Kept = Tuple[Optional[List[List[int]]], Dict[str, Optime], bool]


class CannotGoOn(LabError):
    """A macro that can't go on, and why."""

    def __init__(self, sentence: str):
        super().__init__(MACRO, sentence)
        #: The script with what the macro had played.
        self.lines: List[str] = []


class Macros:
    """Plays macros on a script, and keeps which nodes a partition parts."""

    def __init__(self, player: Player, take: Callable[[str], None]):
        self.player = player
        self._take = take
        self.groups: Optional[List[List[int]]] = None
        #: Whether documents are read as mongosh has them from here on, also those that a script may have.
        self.foreign = False
        self.asking = Asking(player, self.linked)
        self._living = Living(player, self.linked, lambda node: self._elect([f"n{node}"]), self._fetch)
        self._by_word: Dict[str, Callable[[List[str]], None]] = {
            "elect": self._elect,
            "pull": self._pull,
            "spread": self._spread,
            "partition": self._partition,
            "heal": self._heal,
            "await": self._await,
            "repeat": self._repeated,
            "linear": self._linear,
            "watch": self._watch,
            "sync": self._sync,
            "status": self._status,
            "tick": self._tick,
            "notation": self._notation,
        }

    def kept(self) -> "Kept":
        """What macros leave for later ones, for `restore`."""
        return self.groups, dict(self.asking.tokens), self.foreign

    def restore(self, kept: "Kept") -> None:
        """Goes back to what was left then."""
        self.groups, self.asking.tokens, self.foreign = kept[0], dict(kept[1]), kept[2]

    def play(self, line: str) -> None:
        """Puts a macro into the script: itself as a comment, and its lines."""
        words = line.split()
        before = len(self.player.lines)
        self.player.add(f"# {line}")
        try:
            # An ID may have spaces of its own.
            self._by_word[words[0]](line.rstrip("\r").split(" ", 3)[1:] if words[0] == "linear" else words[1:])
        except LabError as fault:
            if isinstance(fault, CannotGoOn):
                fault.lines = list(self.player.lines)
            del self.player.lines[before:]
            self.player.forget()
            raise

    def linked(self, one: int, other: int) -> bool:
        """Whether messages pass between two nodes."""
        return self.groups is None or any(one in group and other in group for group in self.groups)

    def optime_of(self, word: str, node: int) -> str:
        """An optime, where `last` stands for that of the node's newest write, or of its last entry where it wrote none."""
        if word != "last":
            return word
        written = self.player.newest_write(node)
        state = self.player.states()[node]
        if written is None and state.down:
            raise CannotGoOn(f"n{node} is down and has written nothing, so 'last' stands for no optime")
        return written or state.last

    # The macros.

    def _elect(self, words: List[str]) -> None:
        node, voters = self._nodes("elect", words)[0], self._nodes("elect", words)[1:]
        for _ in range(CAMPAIGNS):
            reply = self.player.ask(f"campaign n{node}")
            if reply.refused:
                raise CannotGoOn(f"n{node} isn't elected: its campaign is {reply.text}")
            asked = self.player.other_voters(node) if reply.text.startswith("candidate") else []
            lost = self._gather(node, [voter for voter in (voters or asked) if voter in asked])
            if lost is None or reply.text.startswith("won"):
                self.player.ask(f"drain n{node}")
                return
            if not any("later term" in why or "AlreadyVoted" in why for why in lost):
                break
        unasked = [f"n{voter} is no voter of its configuration" for voter in voters if voter not in asked]
        raise CannotGoOn(f"n{node} isn't elected: " + "; ".join([*(lost or []), *unasked] or ["nobody was asked"]))

    def _gather(self, node: int, voters: List[int]) -> Optional[List[str]]:
        """Asks voters until one makes the majority; else says of each what it answered."""
        lost = []
        for voter in voters:
            answer = self._exchange(node, voter)
            if answer.startswith("won"):
                return None
            if answer.startswith("votes"):
                lost.append(f"with n{voter} it has {answer}")
            elif answer.startswith("vote refused"):
                lost.append(f"n{voter} refuses, {answer.split()[-1]}")
            elif answer == "ignored NotCandidate":
                lost.append(f"n{voter} was in a later term")
                break
            else:
                lost.append(f"n{voter} {answer}")
        return lost

    def _pull(self, words: List[str]) -> None:
        nodes = self._nodes("pull", words)
        node = nodes[0]
        source = nodes[1] if len(nodes) > 1 else self._primary(node)
        self._catch_up(node, source)
        self._tell(source, node)

    def _spread(self, words: List[str]) -> None:
        node = self._nodes("spread", words)[0]
        self.player.repeat(f"flush n{node}")
        others = self._reachable(node)
        for other in others:
            self._catch_up(other, node)
        for other in others:
            self._tell(node, other)

    def _await(self, words: List[str]) -> None:
        node = self._nodes("await", words[:1])[0]
        if len(words) not in (2, 3):
            raise CannotGoOn(f"the macro reads '{FORMS['await']}'")
        concern = words[2] if len(words) == 3 else "majority"
        ack = f"ack n{node} {self.optime_of(words[1], node)} {concern}"
        self.player.repeat(f"flush n{node}")
        for other in self._reachable(node):
            if not self.player.look(ack).text.startswith("refused 15"):
                break
            self._catch_up(other, node)
        reply = self.player.ask(ack)
        if reply.refused:
            raise CannotGoOn(f"n{node} can't acknowledge it, with what it can reach: '{ack}' is {reply.text}")

    def _partition(self, words: List[str]) -> None:
        groups = [self._nodes("partition", part.split()) for part in " ".join(words).split("|")]
        named = [node for group in groups for node in group]
        if len(named) != len(set(named)):
            raise CannotGoOn("a node stands on both sides of the partition")
        alone = [node for node in range(self.player.size().nodes) if node not in named]
        self.groups = groups + ([alone] if alone else [])

    def _repeated(self, words: List[str]) -> None:
        if len(words) < 2 or not words[0].isdecimal() or not 1 <= int(words[0]) <= MOST_REPEATS:
            raise CannotGoOn(f"the macro reads '{FORMS['repeat']}', with a COUNT up to {MOST_REPEATS}")
        line = " ".join(words[1:])
        if words[1] == "repeat":
            raise CannotGoOn("'repeat' repeats a command or another macro, and no 'repeat'")
        for number in range(1, int(words[0]) + 1):
            self._take(line.replace("#", str(number)))

    def _heal(self, words: List[str]) -> None:
        if words:
            raise CannotGoOn("'heal' has no other words: it ends the partition")
        self.groups = None

    def _linear(self, words: List[str]) -> None:
        if len(words) != 3 or not is_document(words[1], words[2]):
            raise CannotGoOn(f"the macro reads '{FORMS['linear']}'")
        read = f"read {words[0]} local {words[1]} {words[2]}"
        key = translated(read).split(" ", 4)[4] if self.foreign or is_foreign(read) else words[2]
        self.asking.linear(self._nodes("linear", words[:1])[0], words[1], key)

    def _watch(self, words: List[str]) -> None:
        nodes = [node_number(word) for word in words[2:]]
        token = re.fullmatch(r"[0-9a-f]{32}|[A-Za-z]\w*", words[1]) if len(words) > 1 else None
        if not nodes or None in nodes or not token or not re.fullmatch(r"[A-Za-z][\w.]{0,63}", words[0]):
            raise CannotGoOn(f"the macro reads '{FORMS['watch']}', with 'start', 32 digits or a name as the TOKEN")
        self.asking.watch(words[0], words[1], [node for node in nodes if node is not None])

    def _sync(self, words: List[str]) -> None:
        node = node_number(words[0]) if len(words) == 1 else None
        if node is None:
            raise CannotGoOn(f"the macro reads '{FORMS['sync']}'")
        self.asking.sync(node)

    def _status(self, words: List[str]) -> None:
        if words:
            raise CannotGoOn("'status' has no other words")
        self.asking.status()

    def _tick(self, words: List[str]) -> None:
        if len(words) != 2 or not all(map(str.isdecimal, words)) or not 1 <= int(words[0]) <= MOST_TICKS or int(words[1]) >= 2**64:
            raise CannotGoOn(f"the macro reads '{FORMS['tick']}', with a COUNT up to {MOST_TICKS} and a SEED of 64 bits")
        self._living.tick(int(words[0]), int(words[1]))

    def _notation(self, words: List[str]) -> None:
        if words not in (["own"], ["mongosh"]):
            raise CannotGoOn(f"the macro reads '{FORMS['notation']}'")
        self.foreign = words == ["mongosh"]

    # What they are made of.

    def _nodes(self, macro: str, words: List[str]) -> List[int]:
        numbers = [number for number in map(node_number, words) if number is not None]
        count = self.player.size().nodes
        if not numbers or len(numbers) != len(words) or max(numbers) >= count:
            raise CannotGoOn(f"the macro reads '{FORMS[macro]}', and the nodes are n0 to n{count - 1}")
        limit = {"pull": 2, "spread": 1, "await": 1, "linear": 1}.get(macro, count)
        if len(numbers) > limit or len(set(numbers)) != len(numbers):
            raise CannotGoOn(f"the macro reads '{FORMS[macro]}', with each node once")
        return numbers

    def _reachable(self, node: int) -> List[int]:
        """The members that are up and hear the node."""
        states = self.player.states()
        if states[node].down:
            raise CannotGoOn(f"n{node} is down")
        return [other for other in self.player.other_members(node) if self.linked(node, other) and not states[other].down]

    def _primary(self, node: int) -> int:
        """The primary of the highest term that the node can hear."""
        states = self.player.states()
        leaders = [other for other, state in states.items() if state.role == "Primary" and self.linked(node, other)]
        leaders = [other for other in leaders if other != node]
        if not leaders:
            raise CannotGoOn(f"n{node} hears no primary: name the node that it should pull from")
        return max(leaders, key=lambda other: int(states[other].term))

    def _exchange(self, node: int, other: int) -> str:
        """Delivers the newest message to the other, and its answer back; what that came to."""
        if not self.linked(node, other):
            self.player.add(f"# lost in the partition: deliver n{node} n{other}")
            return "is cut off by the partition"
        asked = self.player.attempt(f"deliver n{node} n{other}")
        if asked.refused:
            return "is down" if asked.text.startswith("refused 1 ") else f"answers {asked.text}"
        if not asked.text.startswith("replied"):
            return asked.text
        return self.player.ask(f"deliver n{other} n{node}").text

    def _tell(self, node: int, other: int) -> None:
        """A heartbeat from the node to the other, which must be heard."""
        if not self.linked(node, other):
            raise CannotGoOn(f"n{other} doesn't hear n{node}, which the partition cuts off")
        sent = self.player.ask(f"heartbeat n{node} n{other}")
        heard = sent if sent.refused else self.player.ask(f"deliver n{node} n{other}")
        if heard.text == "ignored OldTerm":
            raise CannotGoOn(f"n{other} doesn't listen to n{node}, which is in an older term")
        if heard.refused:
            raise CannotGoOn(f"n{other} doesn't hear n{node}: {heard.text}")

    def _catch_up(self, node: int, source: int) -> None:
        """The node takes all that it knows to be missing, keeps it on disk, applies it and reports."""
        self._tell(source, node)
        while self._fetch(node):
            pass
        self.player.repeat(f"flush n{node}")
        self.player.repeat(f"apply n{node}")
        self.player.add(f"report n{node} n{source}")
        self.player.add(f"deliver n{node} n{source}")

    def _fetch(self, node: int) -> bool:
        """One fetch, and a rollback where the logs have parted. Gives whether it is worth to go on."""
        sent = self.player.attempt(f"fetch n{node}")
        if sent.refused:
            return False
        place = int(sent.text.rsplit("n", 1)[1])
        answer = self._exchange(node, place)
        if answer.startswith("took"):
            return not answer.startswith("took 0 ")
        if answer == "ignored OtherPlace":
            self.player.ask(f"common n{node} n{place}")
            answer = self._exchange(node, place)
            if answer.startswith("rolled back"):
                return True
        forget = f"; crash and restart n{node} to make it forget what n{place} said" if answer.startswith("is ") else ""
        raise CannotGoOn(f"n{node} asks n{place}, the lowest number that it knows to go further, which {answer}{forget}")
