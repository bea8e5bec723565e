"""Whether a trace is that of a run; and where it isn't, what the run would say there, and which step may be missing."""
from __future__ import annotations

import re
import time
from dataclasses import dataclass, field
from typing import Iterator, List, Optional, Sequence, Tuple

from .diagnose import cause_of
from .errors import FAILED, LabError, ScriptFault
from .program import play, run_program, script_bytes
from .reference import find, read_reference
from .script import acting_node, node_number, words_of
from .show import Progress, marked, printable

#: For so many seconds a missing step is looked for.
LONGEST = 20.0

_EVENT = re.compile(r"event (\d+) (-|\d+) (\d+) (.*)$")


@dataclass
class Event:
    """An event of a trace: its line, the number of the store that failed, the command, and the lines of its reply."""

    line: int
    number: str
    failed: str
    kept: str
    command: str
    reply: List[str] = field(default_factory=list)


def verdict_of(lines: Sequence[str]) -> str:
    """What the program says of a trace: `yes` and the number of events, or a line and why it shows that it is none."""
    done = run_program(["check"], script_bytes(lines))
    said = done.stdout.decode("utf-8", "replace").strip()
    if done.returncode not in (0, 10):
        raise LabError(FAILED, f"the program ended with status {done.returncode} where it should check the trace")
    return said


def judged(lines: Sequence[str]) -> List[str]:
    """What is told of a trace: that it is one, or which line shows that it is none, and why."""
    said = verdict_of(lines)
    found = re.match(r"line (\d+): (\w+)$", said)
    if not found:
        return [f"{said}: it is the trace of a run"]
    number, reason = int(found[1]), found[2]
    line = lines[number - 1] if number <= len(lines) else ""
    told = [said]
    events = _events(lines[: number + _more(lines, number)])
    if reason == "OtherReply" and events:
        told += _other_reply(lines, number, events)
    elif reason == "BadEvent":
        told += _bad_event(lines, number)
    else:
        told += [f"  {number}  {printable(line)}"]
    told += [f"  {cause}" for cause in _unseen(line)]
    for entry, _ in find(read_reference(), reason)[:1]:
        told += ["", f"{entry.name}: {entry.meaning}."]
    return told


def _more(lines: Sequence[str], number: int) -> int:
    """How many lines below a faulty one still belong to its reply."""
    return next((place for place, line in enumerate(lines[number:]) if not line.startswith("  ")), len(lines) - number)


def _unseen(line: str) -> Iterator[str]:
    """What nobody sees in a line, and what makes it another."""
    if line.endswith("\r"):
        yield "the line ends with a carriage return (CRLF), which is a character like any other in a trace"
    if line.rstrip("\r").endswith(" "):
        yield "the line ends with a space"
    if line.startswith("\ufeff"):
        yield "a byte order mark stands in front"
    if line == "":
        yield "a trace has no empty lines"


def _events(lines: Sequence[str]) -> List[Event]:
    events: List[Event] = []
    for number, line in enumerate(lines[1:], 2):
        found = _EVENT.match(line.rstrip("\r"))
        if found:
            events.append(Event(number, found[1], found[2], found[3], found[4]))
        elif events:
            events[-1].reply.append(line)
    return events


def _script(header: str, events: Sequence[Event]) -> Tuple[List[str], int]:
    """The script of the events, with a disk told to fail before each event in which one did; and the last one's line in it."""
    lines = ["set " + header.rstrip("\r").split(" ", 1)[1]]
    for place, event in enumerate(events):
        if event.failed != "-" and not any(words_of(other.command)[0] == "diskfail" for other in events[:place]):
            lines += _failing(event, events[place + 1 :])
        lines.append(event.command)
    return lines, len(lines)


def _failing(event: Event, later: Sequence[Event]) -> List[str]:
    """What makes a store of an event fail. A record of a journal is stored in four calls, and is kept where the last one fails."""
    node, word = acting_node(event.command), words_of(event.command)[0]
    ups = [other for other in later if words_of(other.command)[0] == "restart" and node in (None, acting_node(other.command))]
    if node is None and not ups:
        return []
    # To whom a message goes that is named by its number, the restart tells.
    name, kept = words_of(ups[0].command)[1] if ups else f"n{node}", bool(ups) and ups[0].kept == "1"
    disk = "checkpoint" if word == "checkpoint" else "journal"
    return [f"diskfail {name} {disk} {4 * int(event.failed) + (4 if kept else 1)}" + (" 1" if kept else "")]


def _answer(lines: List[str], number: int, before: Sequence[Event] = ()) -> List[str]:
    """What a run of these lines says to one of them; nothing where they are none, or where it said otherwise before."""
    try:
        replies = play(lines).replies
    except ScriptFault:
        return []
    said = [reply.text for reply in replies if reply.text != "armed" or not lines[reply.line - 1].startswith("diskfail")]
    told = [event.reply[0].split(": ", 1)[-1] for event in before if event.reply and not event.command.startswith("diskfail")]
    reply = next((reply for reply in replies if reply.line == number), None)
    return [reply.text, *("  " + more for more in reply.more)] if reply and said[: len(told)] == told else []


def _other_reply(lines: Sequence[str], number: int, events: List[Event]) -> Iterator[str]:
    """What stands there, what the run would say, and which step may be missing."""
    event = next(event for event in reversed(events) if event.line < number)
    before = [other for other in events if other.line <= event.line]
    script, at = _script(lines[0], before)
    said = _answer(script, at, before[:-1])
    if not said:
        yield "  what the run would say isn't known: it can't be played as a script"
        return
    wanted = [f"{int(event.number)}: {said[0]}", *said[1:]]
    yield f"  {event.line}  {printable(lines[event.line - 1])}"
    place = number - event.line - 1
    yield from marked("the trace says", event.reply[place] if place < len(event.reply) else "(nothing)",
                      "the run says", wanted[place] if place < len(wanted) else "(nothing more)")
    given = [line.rstrip(" \r") for line in event.reply]
    if given == wanted:
        return
    if list(map(_numberless, given)) == list(map(_numberless, wanted)):
        yield "  messages have other numbers from here on: an event that sends one is missing before it, or is one too many"
        return
    step = _missing(script[:-1], script[-1], given)
    if step:
        yield f"  a step may be missing before line {event.line}: after {' and '.join(repr(line) for line in step)} the run says so"


def _numberless(text: str) -> str:
    """A text whose message numbers don't count: a step more shifts them."""
    return re.sub(r"\bm\d+", "m", text)


def _missing(lines: List[str], command: str, reply: List[str]) -> Optional[List[str]]:
    """The shortest step that, put before a command, makes the run answer it so; where one is found."""
    if not reply or ": " not in reply[0]:
        return None
    wanted = [_numberless(reply[0].split(": ", 1)[1]), *map(_numberless, reply[1:])]
    nodes, begun = int(words_of(lines[0])[1]), time.monotonic()
    steps = list(_steps(lines, command, nodes))
    progress = Progress(len(steps), "looking for a missing step")
    try:
        for step in steps:
            tried = [*lines, *step, command]
            if [_numberless(line) for line in _answer(tried, len(tried))] == wanted:
                return step
            if time.monotonic() - begun > LONGEST:
                return None
            progress.step()
        return None
    finally:
        progress.close()


def _steps(lines: List[str], command: str, nodes: int) -> Iterator[List[str]]:
    """Steps that a server's log may not tell: what a node does by itself, and messages from and to the nodes that are named."""
    named = [number for number in map(node_number, words_of(command)[1:3]) if number is not None and number < nodes]
    acting = acting_node(command)
    every = list(dict.fromkeys([*([] if acting is None else [acting]), *named, *range(nodes)]))
    for word in ("flush", "apply", "restart", "stepdown", "drain", "checkpoint"):
        yield from ([f"{word} n{node}"] for node in every)
    pairs = [(one, other) for one in every for other in every if one != other and (not named or one in named or other in named)]
    for word in ("heartbeat", "report"):
        yield from ([f"{word} n{one} n{other}", f"deliver n{one} n{other}"] for one, other in pairs)
    for one, other in pairs:
        yield [f"heartbeat n{one} n{other}", f"deliver n{one} n{other}", f"deliver n{other} n{one}"]
        yield [f"flush n{one}", f"report n{one} n{other}", f"deliver n{one} n{other}"]
    yield from ([f"deliver n{one} n{other}"] for one, other in pairs)
    if acting is not None:
        yield from ([f"clock n{acting} {seconds}"] for seconds in _seconds(lines, command))


def _seconds(lines: List[str], command: str) -> List[int]:
    """Seconds that a clock may have to show: none is known from here, but those that follow what was set."""
    known = [int(words_of(line)[2]) for line in [*lines, command] if words_of(line)[0] == "clock" and len(words_of(line)) == 3]
    return sorted({second + 1 for second in known} | {0, 1})


def _bad_event(lines: Sequence[str], number: int) -> Iterator[str]:
    """An event's line that is none, with the likely cause."""
    line = lines[number - 1] if number <= len(lines) else ""
    yield f"  {number}  {printable(line)}"
    words = line.split(" ", 4)
    if len(words) < 5 or words[0] != "event":
        yield "  an event reads 'event LINE FAILED KEPT COMMAND'"
        return
    try:
        play([_script(lines[0], [])[0][0], words[4]])
    except ScriptFault as fault:
        cause = cause_of(words[4], fault.rule, int(words_of(lines[0])[1]))
        begins = len(f"  {number}  ") + len(line) - len(words[4])
        if cause.place is not None:
            yield " " * (begins + cause.place) + "^"
        yield f"  {fault.rule}" + (f": {cause.told}" if cause.told else "")
