"""What became of the writes of a run, read slowly: each node is asked for its state and its whole log after each line.

It shares nothing with the lab's own reading but the definitions of the verdicts, and follows no replies to see how a log grows.
"""
from __future__ import annotations

import json
import re
import subprocess
from typing import Any, Dict, List, Optional, Set, Tuple

Optime = Tuple[int, ...]
Entry = Tuple[Optime, str]  # where it stands, and what it touches
Verdicts = Set[Tuple[Any, ...]]


def optime_of(text: str) -> Optime:
    """An optime's three numbers."""
    return tuple(int(part) for part in text.split("/"))


def value_at(text: str) -> str:
    """The value with which a text begins, as a key."""
    found = re.match(r'"(?:\\.|[^"\\])*"|[^,} ]+', text)
    assert found is not None, text
    return found[0].rstrip("L") if found[0][0] in "-0123456789" else found[0]


def entry_of(line: str) -> Entry:
    """An entry of a printed log."""
    at, kind, rest = line.split(" ", 2)
    if kind == "n":
        return optime_of(at), ""
    collection, rest = rest.split(" ", 1)
    return optime_of(at), f"{collection} {value_at(rest if kind == 'u' else rest.split('_id: ', 1)[1])}"


class Node:
    """A node at some moment: its state, by names, and its log; no state where it is down."""

    def __init__(self, state: List[str], log: List[Entry]):
        words = state[0].split(" ")
        self.up = words[0] == "state"
        self.role = words[1] if self.up else "Down"
        self.told = dict(zip(words[2::2], words[3::2])) if self.up else {}
        self.log = log if self.up else []
        self.optimes = {at for at, _ in self.log}

    def point(self, name: str) -> Optime:
        """One of its points."""
        return optime_of(self.told[name])

    def front(self, level: str) -> List[Entry]:
        """The entries that it shows at a level."""
        if level == "local" and self.role == "Primary":
            return self.log
        end = self.point("applied") if level == "local" else min(self.point("applied"), self.point("commit"))
        return [entry for entry in self.log if entry[0] <= end]


class SlowReading:
    """The fates of a script's writes, and its verdicts."""

    def __init__(self, program: str, lines: List[str], nodes: int):
        self.lines, self.nodes = lines, range(nodes)
        self.known: Dict[Tuple[str, ...], List[Entry]] = {}
        self.replies, self.moments, self.ends = self._played(program)
        self.writes: Dict[Optime, Dict[str, Any]] = {}
        self.verdicts: Verdicts = set()
        self._follow()
        self._settle()

    def _played(self, program: str) -> Tuple[List[str], List[List[Node]], List[Node]]:
        """The replies, the nodes before the first line and after each, and the nodes once those that are down are up again."""
        asked = [word for node in self.nodes for word in (f"state n{node}", f"log n{node}")]
        script = [self.lines[0], *asked]
        for line in self.lines[1:]:
            script += [line, *asked]
        script += [f"restart n{node}" for node in self.nodes for _ in range(3)] + asked
        done = subprocess.run([program, "run"], input="\n".join(script).encode(), stdout=subprocess.PIPE, check=True)
        told: List[List[str]] = []
        for line in done.stdout.decode().splitlines():
            if line.startswith("  "):
                told[-1].append(line[2:])
            else:
                told.append([line.split(": ", 1)[1]])
        step = len(asked)
        moments = [self._nodes(told[place : place + step]) for place in range(0, (step + 1) * len(self.lines) - 1, step + 1)]
        replies = [""] + [told[step + (step + 1) * place][0] for place in range(len(self.lines) - 1)]
        return replies, moments, self._nodes(told[-step:])

    def _nodes(self, told: List[List[str]]) -> List[Node]:
        return [Node(told[2 * node], self._log(tuple(told[2 * node + 1][1:]))) for node in self.nodes]

    def _log(self, printed: Tuple[str, ...]) -> List[Entry]:
        if printed not in self.known:
            self.known[printed] = [entry_of(line) for line in printed]
        return self.known[printed]

    # What each line did.

    def _follow(self) -> None:
        self.down_logs: Dict[int, Tuple[int, Set[Optime]]] = {}
        self.reads: List[Tuple[int, str, Optional[Optime]]] = []
        self.committed: Set[Optime] = set()
        self.safe: Dict[str, Set[Optime]] = {}
        self.configs: Dict[str, Tuple[int, bool, str, List[int]]] = {}
        voters = self.lines[0].split(" ")[1:]
        self.members = {"0/1": list(range(min(7, int(voters[0])) if len(voters) == 1 else int(voters[1])))}
        for number in range(2, len(self.lines) + 1):
            before, after = self.moments[number - 2], self.moments[number - 1]
            self._take(number, self.lines[number - 1].split(" "), self.replies[number - 1].split(" "), before)
            for node in self.nodes:
                self._compare(number, node, before[node], after[node])
            leading = [node for node in self.nodes if after[node].role == "Primary"]
            led = [node for node in self.nodes if before[node].role == "Primary"]
            if len(leading) > 1 and set(leading) - set(led):
                self.verdicts.add(("two-primaries", number))

    def _take(self, number: int, words: List[str], told: List[str], before: List[Node]) -> None:
        if told[0] in ("written", "begun", "committed"):
            write = self.writes.setdefault(optime_of(told[1]), {"line": number, "done": False, "acks": {}, "removals": []})
            write["done"] = write["done"] or told[0] != "begun"
        elif told[0] == "acked":
            self._take_ack(number, words, optime_of(told[1]), before[int(words[1][1:])])
        elif told[0] in ("found", "missing"):
            self._take_read(number, words, before[int(words[1][1:])])
        elif told[0] in ("config", "primary"):
            held = before[int(words[1][1:])].told["config"]
            name = told[1] if told[0] == "config" else f"{told[1]}/{held.split('/')[1]}"
            self.members[name] = self.members.get(held, [])
            if told[0] == "config":
                listed = json.loads(" ".join(words[2:]))["members"]
                self.members[name] = [member["_id"] for member in listed if member.get("votes", 1)]
            self.configs.setdefault(name, (number, told[0] == "config", held, self.members[name]))

    def _take_ack(self, number: int, words: List[str], at: Optime, node: Node) -> None:
        if at in self.writes:
            self.writes[at]["acks"].setdefault(words[3], number)
        if words[3] == "majority":
            for place, touched in node.log:
                if place <= at:
                    self.committed.add(place)
                    self.safe.setdefault(touched, set()).add(place)

    def _take_read(self, number: int, words: List[str], node: Node) -> None:
        touched, level = f"{words[3]} {value_at(words[4])}", words[2]
        front = node.front(level)
        shown = [place for place, other in front if other == touched]
        if level == "local":
            self.reads.append((number, touched, shown[-1] if shown else None))
        end = max((at for at, _ in front), default=(0, 0, 0))
        if any(place not in node.optimes or place > end for place in self.safe.get(touched, ())):
            self.verdicts.add(("stale-read", number))
        if level == "majority" and shown:
            self.safe.setdefault(touched, set()).add(shown[-1])

    def _compare(self, number: int, node: int, before: Node, after: Node) -> None:
        """Notes what a node's log has lost, and what it knows to be committed."""
        if after.up:
            self.committed |= {at for at in after.optimes if at <= after.point("commit")}
        if before.up and not after.up:
            self.down_logs[node] = number, before.optimes
        elif before.up:
            self._removed(node, number, before.optimes - after.optimes, True)
        elif after.up:
            line, log = self.down_logs.pop(node)
            self._removed(node, line, log - after.optimes, False)

    def _removed(self, node: int, line: int, gone: Set[Optime], rollback: bool) -> None:
        for at in gone:
            if at in self.writes:
                self.writes[at]["removals"].append((node, line, rollback))

    # The end.

    def _settle(self) -> None:
        last = self.moments[-1]
        for node, (line, log) in self.down_logs.items():
            self._removed(node, line, log - self.ends[node].optimes, False)
        primaries = [node for node in self.nodes if last[node].role == "Primary"]
        leader = max(primaries, key=lambda node: int(last[node].told["term"]), default=None)
        for at, write in self.writes.items():
            having = [node for node in self.nodes if at in (last if last[node].up else self.ends)[node].optimes]
            write["logs"] = [node for node in having if last[node].up]
            write["disks"] = [node for node in having if not last[node].up]
            write["committed"] = at in self.committed
            led = leader is not None and int(last[leader].told["term"]) > at[0]
            write["lost"] = write["done"] and (not having or led and leader not in having)
            self._judge(write)
        if leader is None:
            self.verdicts.add(("no-primary",))
        self._judge_reads()
        self._judge_configs(last)

    def _judge(self, write: Dict[str, Any]) -> None:
        if write["lost"] and write["acks"]:
            self.verdicts.add(("w1-lost" if set(write["acks"]) == {"1"} else "acked-lost", write["line"]))
        for node, line, rollback in write["removals"]:
            if rollback:
                self.verdicts.add(("rolled-back", write["line"], line))

    def _judge_reads(self) -> None:
        for number, _, shown in self.reads:
            write = self.writes.get(shown) if shown is not None else None
            if write and (write["lost"] or any(rollback and line > number for _, line, rollback in write["removals"])):
                self.verdicts.add(("dirty-read", number))

    def _judge_configs(self, last: List[Node]) -> None:
        held = {}
        for node in self.nodes:
            chain = [(last if last[node].up else self.ends)[node].told["config"]]
            while chain[-1] in self.configs:
                chain.append(self.configs[chain[-1]][2])
            held[node] = chain
        for name, (line, asked, _, voters) in self.configs.items():
            if asked and 2 * sum(name in held[node] for node in voters) <= len(voters):
                self.verdicts.add(("uncommitted-config", line))
