"""The messages of a run: who sent each to whom, about what, and in which line, found from the replies."""
from __future__ import annotations

import json
import re
from dataclasses import dataclass
from functools import lru_cache
from typing import Dict, List, Optional, Set, Tuple

from .script import KEPT, SetSize, acting_node, words_of
from .state import State

_ASKED = re.compile(r"(?:candidate|dryrun) \d+ sent m(\d+) (\d+)$")
_SENT = re.compile(r"sent m(\d+)(?: to n(\d+))?$")
_REPLIED = re.compile(r"replied m(\d+)$")
_CONFIG = re.compile(r"config (\d+)/(\d+)$")
_DRAINED = re.compile(r"primary (\d+) noop ")

#: The first words of replies that tell of messages or of configurations.
_ASKING, _MAKING = ("candidate", "dryrun"), ("config", "primary")


@dataclass
class Message:
    """One message: its number, ends, kind and the line that sent it."""

    number: int
    sender: int
    receiver: int
    kind: str
    line: int
    answers: Optional[int] = None


@dataclass(frozen=True)
class Members:
    """The members of a configuration, and those of them that vote, by their numbers."""

    numbers: Tuple[int, ...] = ()
    voters: Tuple[int, ...] = ()


class Configs:
    """The configurations that a run has told of: who the members of each are, and which one a node has."""

    def __init__(self, size: SetSize):
        self._members = {"0/1": Members(tuple(range(size.members)), tuple(range(size.voters)))}
        self._config: Dict[int, str] = {}

    def branch(self) -> "Configs":
        """The same, for a run that goes on otherwise."""
        made = Configs.__new__(Configs)
        made._members, made._config = dict(self._members), dict(self._config)
        return made

    def notice_state(self, node: int, state: State) -> None:
        """Learns which configuration a node has."""
        if not state.down:
            self._config[node] = state.config

    def members_of(self, config: str) -> Members:
        """The members of a configuration, named by term and version, as far as the run has told."""
        return self._members.get(config, Members())

    def other_voters(self, node: int) -> List[int]:
        """The voters of a node's configuration but itself."""
        return [voter for voter in self.members_of(self._config.get(node, "0/1")).voters if voter != node]

    def learn(self, node: int, line: str, reply: str) -> None:
        """Learns of the configuration that a reply tells of, if it does."""
        made, drained = _CONFIG.match(reply), _DRAINED.match(reply)
        if made:
            config = f"{made[1]}/{made[2]}"
            self._members[config] = _members_of(line.split(" ", 2)[2])
        elif drained:
            was = self._config.get(node, "0/1")
            config = f"{drained[1]}/{was.split('/')[1]}"
            self._members.setdefault(config, self.members_of(was))
        else:
            return
        self._config[node] = config


class Mail:
    """The messages so far, with what is needed to know to whom a candidate's go: who the voters of each configuration are."""

    def __init__(self, size: SetSize):
        self.messages: List[Message] = []
        #: The numbers of those that were handed over.
        self.delivered: Set[int] = set()
        self.configs = Configs(size)
        self._newest: Dict[Tuple[int, int], Message] = {}

    def receive(self, line: str) -> Optional[Message]:
        """The message that a `deliver` line hands over, if there is one."""
        number, receiver = _handed(line)
        if receiver is None:
            return self.messages[number] if number < len(self.messages) else None
        return self._newest.get((number, receiver))

    def deliver(self, line: str, number: int, reply: str) -> Optional[Message]:
        """Notes a delivery, and the answer that it sent."""
        message = self.receive(line)
        if message is None:
            return None
        if not reply.startswith("refused"):
            self.delivered.add(message.number)
        answered = _REPLIED.match(reply) if reply.startswith("replied") else None
        if answered:
            self._send(message.receiver, message.sender, message.kind, number, message.number)
        return message

    def act(self, line: str, number: int, reply: str) -> List[Message]:
        """Notes what a command other than `deliver` sent, and the configurations that it made."""
        node, head = acting_node(line), reply.split(" ", 1)[0]
        before = len(self.messages)
        if node is None:
            return []
        if head == "sent":
            self._note_sent(node, line, number, reply)
        elif head in _ASKING:
            self._note_asked(node, number, reply)
        elif head in _MAKING:
            self.configs.learn(node, line, reply)
        return self.messages[before:]

    def _note_asked(self, node: int, number: int, reply: str) -> None:
        asked = _ASKED.match(reply)
        if asked and int(asked[2]):
            for voter in self.configs.other_voters(node):
                self._send(node, voter, "vote", number)

    def _note_sent(self, node: int, line: str, number: int, reply: str) -> None:
        sent = _SENT.match(reply)
        if sent:
            words = words_of(line)
            self._send(node, int(sent[2] or words[2][1:]), words[0], number)

    def _send(self, sender: int, receiver: int, kind: str, line: int, answers: Optional[int] = None) -> None:
        message = Message(len(self.messages), sender, receiver, kind, line, answers)
        self.messages.append(message)
        self._newest[sender, receiver] = message


@lru_cache(KEPT)
def _handed(line: str) -> Tuple[int, Optional[int]]:
    """What a `deliver` line hands over: a message by its number, or from one node to another."""
    words = words_of(line)
    return int(words[1][1:]), int(words[2][1:]) if len(words) > 2 else None


def _members_of(text: str) -> Members:
    """The members of a configuration that was accepted, in order of number."""
    votes = {member["_id"]: member.get("votes", 1) for member in json.loads(text)["members"]}
    return Members(tuple(sorted(votes)), tuple(number for number in sorted(votes) if votes[number]))
