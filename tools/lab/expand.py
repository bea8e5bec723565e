"""Short scripts become plain ones."""
from __future__ import annotations

from dataclasses import dataclass, field
from typing import List

from .errors import LabError, ScriptFault, StoppedMacro
from .macros import FORMS, CannotGoOn, Macros
from .player import Player
from .program import play
from .script import is_silent, node_number, read_lines, words_of
from .show import Progress, beside
from .transcript import Transcript
from .typed import is_foreign, translated


@dataclass
class Expanded:
    """The lines of a plain script, and of each the line of the short one that it came from."""

    lines: List[str] = field(default_factory=list)
    source: List[int] = field(default_factory=list)

    def number(self, line: int) -> str:
        """A plain line's number: that of the short script's line, with its own in brackets where the two differ."""
        origin = self.source[line - 1] if 0 < line <= len(self.source) else line
        return str(line) if origin == line else f"{origin} ({line})"

    @property
    def short(self) -> bool:
        """Whether the file has macros in it, so that its lines have other numbers than the plain ones."""
        return any(origin != line for line, origin in enumerate(self.source, 1))

    def play(self) -> Transcript:
        """The replies, or the fault of a line by the number that it has in the file."""
        try:
            return play(self.lines)
        except ScriptFault as fault:
            beyond = max(0, fault.line - len(self.source))
            origin = self.source[fault.line - beyond - 1] + beyond if self.source else fault.line
            raise ScriptFault(origin, fault.rule, fault.text, fault.line) from None


class Expander:
    """Takes the lines of a short script one by one."""

    def __init__(self, player: Player):
        self.player = player
        self.macros = Macros(player, self.take)

    def take(self, line: str) -> None:
        """Puts a line of a short script into the plain one."""
        words = words_of(line)
        if is_silent(line):
            self.player.add(line)
        elif words[0] in FORMS:
            if self.player.open_block() is not None:
                raise LabError(3, f"'{words[0]}' can't stand in a block: only plain commands can")
            self.macros.play(line)
        elif words[0] == "deliver" and self._parted(words):
            self.player.add(f"# lost in the partition: {line}")
        else:
            self.player.add(self._plain(line, words))

    def _plain(self, line: str, words: List[str]) -> str:
        """The line with `last` of an `ack` made an optime, and a document of mongosh's one of a script."""
        if self.macros.foreign or is_foreign(line):
            return translated(line)
        if words[0] != "ack" or len(words) < 3 or words[2] != "last":
            return line
        node = node_number(words[1])
        if node is None or node >= self.player.size().nodes:
            return line
        block = self.player.open_block()
        before = self if block is None else Expander(Player(self.player.lines[:block]))
        return " ".join([*words[:2], before.macros.optime_of("last", node), *words[3:]])

    def _parted(self, words: List[str]) -> bool:
        """Whether a delivery's message would have to pass from one side of a partition to another."""
        if self.macros.groups is None:
            return False
        if len(words) == 2:
            message = self.player.message(" ".join(words))
            return message is not None and not self.macros.linked(message.sender, message.receiver)
        one, other = [*map(node_number, words[1:3]), None, None][:2]
        return len(words) == 3 and one is not None and other is not None and not self.macros.linked(one, other)


def is_short(lines: List[str]) -> bool:
    """Whether a script has macros in it."""
    words = [words_of(line) for line in lines if not is_silent(line)]
    if any(line[0] in FORMS or line[0] == "ack" and line[2:3] == ["last"] for line in words):
        return True
    return any(map(is_foreign, lines))


def expand(lines: List[str]) -> Expanded:
    """The plain script that a short one comes to. A plain one comes out as it is."""
    if not is_short(lines):
        return Expanded(list(lines), list(range(1, len(lines) + 1)))
    _check_first(lines)
    player = Player()
    expander = Expander(player)
    expanded = Expanded(player.lines)
    progress = Progress(len(lines), "expanding")
    try:
        for number, line in enumerate(lines, 1):
            _take(expander, expanded, number, line)
            expanded.source += [number] * (len(player.lines) - len(expanded.source))
            progress.step()
    finally:
        progress.close()
    return expanded


def _check_first(lines: List[str]) -> None:
    """Sees to it that the first command makes a set, on which all macros rest."""
    first = next((place for place, line in enumerate(lines) if not is_silent(line)), len(lines))
    play(lines[: first + 1])


def _take(expander: Expander, expanded: Expanded, number: int, line: str) -> None:
    """Puts one line of a short script into the plain one."""
    try:
        expander.take(line)
    except ScriptFault as fault:
        origin = expanded.source[fault.line - 1] if fault.line <= len(expanded.source) else number
        raise ScriptFault(origin, fault.rule, fault.text, fault.line) from None
    except CannotGoOn as fault:
        source = expanded.source + [number] * (len(fault.lines) - len(expanded.source))
        raise StoppedMacro(fault.status, number, fault.sentence, fault.lines, source) from None
    except LabError as fault:
        raise LabError(fault.status, f"line {number}: {fault.sentence}") from None


def up_to(fault: StoppedMacro) -> List[str]:
    """The run up to where a macro can't go on, each line beside its reply."""
    return beside(fault.lines, play(fault.lines), {}, fault.source)


def read_expanded(name: str) -> Expanded:
    """The plain script that a file comes to, short or not. A fault of a short one is told by its own lines."""
    script = expand(read_lines(name))
    if script.short:
        script.play()
    return script


def read_script(name: str) -> List[str]:
    """The plain lines of a script's file, short or not."""
    return read_expanded(name).lines
