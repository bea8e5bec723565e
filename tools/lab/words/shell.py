"""`lab shell`: a prompt that answers line by line."""
from __future__ import annotations

import argparse
import re
import sys
from pathlib import Path
from typing import Callable, Dict, List, Optional, Tuple

from ..asking import TOLD
from ..diagnose import cause_of
from ..drawing import svg_file
from ..errors import FILE, WORDS, LabError, ScriptFault
from ..expand import Expander
from ..layout import picture_of, window
from ..macros import FORMS, CannotGoOn, Kept
from ..observe import observe
from ..player import Player
from ..program import play, script_bytes
from ..script import COMMANDS, is_silent, read_lines
from ..show import printable
from ..status import status_table
from .explain import explain_words
from .picture import MOST_ROWS

SUMMARY = "a prompt that answers each line of a script at once"
DETAILS = """\
Every command of a script is answered as it is typed, and so is every macro, whose lines are shown. Besides these:

    status          the nodes as rs.status() has them, with the entries by which each lags the primary
    undo [N]        takes back what was typed last, or the last N
    script          prints the script so far
    save FILE       keeps it (a plain script)
    picture FILE    draws it (.svg)
    explain WORD    what a command, or a name in a reply, means
    help, quit

Tab completes commands, macros, nodes and collections; the arrow up brings back earlier lines."""

OWN = ("status", "undo", "script", "save", "picture", "explain", "help", "quit")
HISTORY = Path.home() / ".replset_lab_history"

#: The collection that a write names.
_COLLECTION = re.compile(
    r"^(?:begin n\d+ w\d+ |retry n\d+ \d+ \d+ )?(?:insert|replace|update|delete)(?: n\d+)? ([A-Za-z][\w.]*)", re.M
)


def add_arguments(parser: argparse.ArgumentParser) -> None:
    """The word's arguments."""
    parser.add_argument("file", metavar="FILE", nargs="?", help="a script to begin with")
    parser.add_argument("--nodes", metavar="N", type=int, default=3, help="how many nodes the set has, where there is no FILE (3)")


class Shell:
    """The script so far, and where in it each typed line began, for undoing."""

    def __init__(self, put: Callable[[str], None]):
        self.player = Player()
        self._expander = Expander(self.player)
        self._put = put
        self._typed: List[Tuple[int, Kept]] = []
        self._own: Dict[str, Callable[[str], None]] = {
            "status": self._status, "undo": self._undo, "script": self._script, "save": self._save,
            "picture": self._picture, "explain": self._explain, "help": self._help,
        }

    def open(self, lines: List[str]) -> None:
        """Begins with these lines, whose replies aren't shown."""
        for line in lines:
            self._typed.append((len(self.player.lines), self._expander.macros.kept()))
            self._expander.take(line)
        self.player.transcript()

    def take(self, line: str) -> bool:
        """Answers a line. Gives whether the shell goes on."""
        word, _, rest = line.strip().partition(" ")
        if word in ("quit", "exit"):
            return False
        if word in self._own:
            self._own[word](rest.strip())
        elif line.strip():
            self._play(line)
        return True

    def _play(self, line: str) -> None:
        """Puts a line of the script, or a macro, after it, and shows what that came to."""
        before = len(self.player.lines), self._expander.macros.kept()
        try:
            self._expander.take(line)
            replies = self.player.transcript() if self.player.open_block() is None else None
        except LabError as fault:
            del self.player.lines[before[0]:]
            self.player.forget()
            self._expander.macros.restore(before[1])
            if isinstance(fault, CannotGoOn):
                self._show_tried(fault.lines, before[0])
            raise
        self._typed.append(before)
        if replies is None:
            self._put("  (the block is answered when it ends)")
            return
        since = before[0] + 1 if line.strip() != "end" else 1 + self._block_start()
        macro = len(self.player.lines) - before[0] > 1
        for reply in replies.replies:
            if reply.line >= since:
                front = f"  {self.player.lines[reply.line - 1]:42} " if macro or line.strip() == "end" else "  "
                self._put(printable(front + reply.text))
                for more in reply.more:
                    self._put("    " + printable(more))
        for told in self.player.lines[before[0]:]:
            if told.startswith(TOLD):
                self._put("  " + printable(told[len(TOLD):]))

    def _show_tried(self, lines: List[str], count: int) -> None:
        """What a macro did that can't go on. None of it stays."""
        for reply in play(lines).replies if len(lines) > count + 1 else []:
            if reply.line > count:
                self._put(printable(f"  {lines[reply.line - 1]:42} {reply.text}"))

    def _block_start(self) -> int:
        return max(place for place, line in enumerate(self.player.lines) if line == "par")

    def _status(self, _: str) -> None:
        self._put("\n".join(status_table(self.player)))

    def _undo(self, count: str) -> None:
        if count and not count.isdecimal():
            raise LabError(WORDS, "it reads 'undo' or 'undo N'")
        for _ in range(int(count or 1)):
            # The line that makes the set stays.
            if all(is_silent(line) for line in self.player.lines[: self._typed[-1][0]]):
                break
            length, kept = self._typed.pop()
            del self.player.lines[length:]
            self.player.forget()
            self._expander.macros.restore(kept)
        last = next((line for line in reversed(self.player.lines) if not is_silent(line)), "")
        self._put(f"  back after: {printable(last)}")

    def _script(self, _: str) -> None:
        self._put("\n".join(printable(line) for line in self.player.lines))

    def _save(self, name: str) -> None:
        self._write(name, script_bytes(self.player.lines))

    def _picture(self, name: str) -> None:
        first, last = window(self.player.lines, None, MOST_ROWS)
        picture = picture_of(observe(self.player.lines, first, last), first, last)
        self._write(name, svg_file(picture, Path(name).stem).encode())

    def _write(self, name: str, content: bytes) -> None:
        if not name:
            raise LabError(WORDS, "name a file, as 'save run.replset' or 'picture run.svg'")
        try:
            Path(name).write_bytes(content)
        except OSError as fault:
            raise LabError(FILE, f"{name} can't be written: {(fault.strerror or str(fault)).lower()}") from None
        self._put(f"  {name}")

    def _explain(self, what: str) -> None:
        self._put("\n".join(explain_words(what)))

    def _help(self, _: str) -> None:
        self._put(f"{DETAILS}\n\ncommands: {' '.join(COMMANDS[1:])}\nmacros:   {'; '.join(FORMS.values())}")


def completions(player: Player, line: str, word: str) -> List[str]:
    """What a word at the end of a line may be: a command at its front, else a node, a collection or a level."""
    if not line.strip() or " " not in line.lstrip():
        names = [*COMMANDS[1:], *FORMS, *OWN]
    else:
        nodes = [f"n{node}" for node in range(player.size().nodes)]
        collections = _COLLECTION.findall("\n".join(player.lines))
        names = [*nodes, *dict.fromkeys(collections), "local", "majority", "last"]
    return [name for name in names if name.startswith(word)]


def _with_history(shell: Shell) -> Optional[Callable[[], None]]:
    """Readies the arrow and tab keys, where this Python has them. Gives what keeps the history."""
    try:
        import readline
    except ImportError:
        return None
    try:
        readline.read_history_file(str(HISTORY))
    except OSError:
        pass

    def complete(word: str, place: int) -> Optional[str]:
        found = completions(shell.player, readline.get_line_buffer()[: readline.get_begidx()], word)
        return found[place] + " " if place < len(found) else None

    def keep() -> None:
        try:
            readline.write_history_file(str(HISTORY))
        except OSError:
            pass

    readline.set_completer_delims(" ")
    readline.set_completer(complete)
    readline.parse_and_bind("tab: complete")
    return keep


def main(arguments: argparse.Namespace) -> int:
    """Answers lines until there are no more."""
    if not 1 <= arguments.nodes <= 50:
        raise LabError(WORDS, "--nodes is from 1 to 50")
    shell = Shell(print)
    shell.open(read_lines(arguments.file) if arguments.file else [f"set {arguments.nodes}"])
    asked = sys.stdin.isatty()
    keep = _with_history(shell) if asked else None
    if asked:
        print(f"A set of {shell.player.size().nodes} nodes. 'help' shows what may be typed, 'quit' or Ctrl-D ends it.")
    try:
        _loop(shell, "replset> " if asked else "")
    finally:
        if keep:
            keep()
    return 0


def fault_in_short(player: Player, fault: ScriptFault, typed: str) -> str:
    """The likely cause of a fault: of what was just typed, or of a line in the block that it ended."""
    number = fault.line - 1
    line = player.lines[number] if number < len(player.lines) else typed
    cause = cause_of(line, fault.rule, player.size().nodes).told or "this is no command of a script"
    return cause if number >= len(player.lines) else f"line {fault.line}, {printable(line)}: {cause} ('undo' takes lines back)"


def _loop(shell: Shell, prompt: str) -> None:
    while True:
        try:
            line = input(prompt)
        except EOFError:
            return
        except KeyboardInterrupt:
            print()
            continue
        try:
            if not shell.take(line):
                return
        except ScriptFault as fault:
            print(f"  {fault.rule}: {fault_in_short(shell.player, fault, line)}")
        except LabError as fault:
            print(f"  {fault.sentence}")
