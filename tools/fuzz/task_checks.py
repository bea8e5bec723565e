"""What a user may hold against the trace of a script, and against what is asked after one that settled its set.

`check_trace` asks for the trace: it tells the transcript's replies in their order, `check` says yes to it with the number of
its events, and to the same text without its last line that a reply is missing there. `check_questions` asks for a new member,
for linear reads and for changes, whose answers follow from what the script's last lines show of each node. Both give faults.
"""
from typing import Dict, Iterator, List, NamedTuple, Tuple

from script_player import Player, ask
from transcript_checks import fields, key_of, optime

Optime = Tuple[int, ...]

#: How a question that is answered ends, one that is refused, and the check of a text that is no trace.
ANSWERED, REFUSED, NO_TRACE = 0, 9, 10

ZERO = (0, 0, 0)


class Entry(NamedTuple):
    """An entry of a log: its optime, its kind, and what else is printed of it."""

    at: Optime
    kind: str
    rest: str


class Shown(NamedTuple):
    """What the last lines of a script show of a node."""

    state: Dict[str, str]
    log: List[Entry]
    local: List[str]
    majority: List[str]

    def stable(self) -> Optime:
        """As far as the node has applied what is committed."""
        return min(optime(self.state["commit"]), optime(self.state["applied"]))

    def up_to(self, at: Optime) -> List[Entry]:
        return [entry for entry in self.log if entry.at <= at]


def shown(player: Player, node: int) -> Shown:
    """The last lines are, for each node in turn, `state`, `log`, and `dump` at both levels."""
    first = len(player.lines) - 4 * (player.nodes - node) + 1
    state, log, local, majority = (player.answers[first + k].split("\n") for k in range(4))
    words = state[0].split(" ")
    entries = [line.split(" ", 2) for line in log[1:]]
    return Shown(
        dict(zip(words[2::2], words[3::2]), role=words[1]),
        [Entry(optime(at), kind, rest) for at, kind, rest in entries],
        local[1:],
        majority[1:],
    )


def check_trace(player: Player) -> Iterator[str]:
    """What is wrong with the trace of a script without blocks, or with what `check` says of it."""
    status, trace = ask(player.program, ["trace"], player.script())
    lines = trace.splitlines(keepends=True)
    if status != ANSWERED or "".join(line for line in lines[1:] if not line.startswith("event ")) != player.transcript:
        yield f"`trace` ends with status {status}, and tells other replies than the transcript"
        return
    said = ask(player.program, ["check"], trace)
    if said != (ANSWERED, f"yes {len(player.lines) - 1}\n"):
        yield f"`check` says {said} of the trace of {len(player.lines) - 1} events"
    said = ask(player.program, ["check"], "".join(lines[:-1]))
    if said != (NO_TRACE, f"line {len(lines)}: OtherReply\n"):
        yield f"`check` says {said} of the trace without its last line, which is line {len(lines)}"


def check_questions(player: Player, dice) -> Iterator[str]:
    """What is wrong with the answers after a script that settled its set: each node is asked."""
    for node in range(player.nodes):
        seen = shown(player, node)
        yield from unless_answered(player, ["sync", f"n{node}"], *member(player.nodes, seen))
        collection, token = dice.choice("tuv"), dice.choice([ZERO, *(entry.at for entry in seen.log)])
        if token <= optime(seen.state["commit"]):
            words = ["watch", collection, token_text(token), f"n{node}"]
            yield from unless_answered(player, words, ANSWERED, changes(seen, collection, token))
        collection, key = dice.choice("tuv"), dice.choice(["1", "2", "3L", '"a"', "true", "77"])
        words = ["linear", f"n{node}", collection, key]
        yield from unless_answered(player, words, *linear(seen, collection, key))


def unless_answered(player: Player, words: List[str], status: int, told: str) -> Iterator[str]:
    """A fault where the words are answered otherwise after the transcript."""
    ended, put = ask(player.program, words, player.script())
    if (ended, put) != (status, player.transcript + told):
        after = put[len(player.transcript) :] if put.startswith(player.transcript) else put
        yield f"`{' '.join(words)}` ends with status {ended} and tells {after[:300]!r}, and not {told[:300]!r}"


def member(number: int, seen: Shown) -> Tuple[int, str]:
    """What is told of a new member of this number."""
    at = seen.stable()
    if at == ZERO:
        return REFUSED, "sync refused 4 NothingCommitted\n"
    counts = f"entries {len(seen.up_to(at))} documents {len(seen.majority)}"
    return ANSWERED, f"synced n{number} to {'/'.join(map(str, at))} {counts}\n" + indented(seen.majority)


def indented(lines: List[str]) -> str:
    return "".join(f"  {line}\n" for line in lines)


def linear(seen: Shown, collection: str, key: str) -> Tuple[int, str]:
    """What is told of a linear read: the settled primary shows what its own documents are."""
    if seen.state["role"] != "Primary":
        return REFUSED, "linear refused 2 NotPrimary\n"
    for line in seen.local:
        place, document = line.split(" ", 1)
        if place == collection and key_of(fields(document)["_id"]) == key_of(key):
            return ANSWERED, f"linear found {document}\n"
    return ANSWERED, "linear missing\n"


def token_text(at: Optime) -> str:
    return f"{at[0]:016x}{at[1]:08x}{at[2]:08x}"


def changes(seen: Shown, collection: str, token: Optime) -> str:
    """What is told of the changes of a collection after a token."""
    given = [entry for entry in seen.up_to(optime(seen.state["commit"])) if entry.at > token]
    told = [change(entry) for entry in given if entry.kind != "n" and entry.rest.split(" ", 1)[0] == collection]
    return "".join(told) + f"resume {token_text(given[-1].at if given else token)}\n"


def change(entry: Entry) -> str:
    """The line that tells an entry that is no no-op."""
    collection, rest = entry.rest.split(" ", 1)
    before = f"change {token_text(entry.at)}"
    if entry.kind == "i":
        return f"{before} insert {collection} {rest}\n"
    if entry.kind == "d":
        return f"{before} delete {collection} {fields(rest)['_id']}\n"
    document = rest.split(" ", 1)[1]
    return f"{before} {'update' if '$v' in fields(document) else 'replace'} {collection} {rest}\n"
