"""What ends the lab early: one sentence for the user, and a status that says of which kind it is."""
from __future__ import annotations

from typing import Callable, List, Optional, Tuple

#: A test isn't met, or a variation changes what is watched.
DIFFERENT = 1
#: The words are wrong.
WORDS = 2
#: The script is none.
SCRIPT = 3
#: A file can't be read or written.
FILE = 4
#: There is no program to play with.
PROGRAM = 5
#: The program ended in a way that no script asks for.
FAILED = 6
#: A macro can't go on.
MACRO = 7
#: What was asked for isn't there: a pattern that nothing matches, a word that nothing explains.
NOTHING = 8
#: The user interrupted it.
INTERRUPT = 130


class LabError(Exception):
    """Something that the user can mend, told in one sentence."""

    def __init__(self, status: int, sentence: str):
        super().__init__(sentence)
        self.status = status
        self.sentence = sentence

    def __reduce__(self) -> Tuple[Callable[[int, str], "LabError"], Tuple[int, str]]:
        # One of a worker's comes to the process that forked it as a plain one.
        return LabError, (self.status, self.sentence)


class ScriptFault(LabError):
    """The program took the lines for no script. Where these are a short script's, `plain` is the line of the plain one."""

    def __init__(self, line: int, rule: str, text: str, plain: Optional[int] = None):
        shown = text if len(text) <= 60 else text[:57] + "..."
        where = f", where it reads '{shown}'" if text else ""
        number = str(line) if plain in (None, line) else f"{line} ({plain})"
        super().__init__(SCRIPT, f"line {number} is at fault: {rule}{where} (lab explain FILE says more)")
        self.line = line
        self.rule = rule
        self.text = text
        self.plain = plain


class StoppedMacro(LabError):
    """A macro of a short script that can't go on: its line, the plain lines up to there, and of each the line it came from."""

    def __init__(self, status: int, line: int, why: str, lines: List[str], source: List[int]):
        super().__init__(status, f"line {line}: {why}")
        self.line = line
        self.why = why
        self.lines = lines
        self.source = source
