"""The traces of all scripts, checked: as they are, cut short, and with another digit in a reply."""
from __future__ import annotations

import re
from functools import partial
from typing import Iterator, List, Optional

from .folder import names, read
from .playing import CHECK, NO_SCRIPT, NO_TRACE, TRACE, Fault, Program, Task, expect


def tasks() -> Iterator[Task]:
    """The trace of each script."""
    for name in names():
        yield Task(f"the trace of {name}, checked", partial(is_a_trace, name))


def is_a_trace(name: str, program: Program) -> None:
    """A trace is answered with the number of its events; as none where it is cut or a reply is another."""
    traced = program.ask(TRACE, read(name, "replset"))
    if traced.status == NO_SCRIPT:
        return
    lines = traced.put.split("\n")[:-1]
    count = sum(line.startswith("event ") for line in lines)
    expect(program.ask(CHECK, traced.put), 0, f"yes {count}\n")
    is_refused_without_its_last_line(lines, program)
    for place, line in enumerate(lines):
        other = with_another_digit(line)
        if other is not None:
            changed = [*lines[:place], other, *lines[place + 1:]]
            expect(program.ask(CHECK, text_of(changed)), NO_TRACE, f"line {place + 1}: OtherReply\n")


def is_refused_without_its_last_line(lines: List[str], program: Program) -> None:
    """The last line is a reply's, or the header where there is no event."""
    cut = program.ask(CHECK, text_of(lines[:-1]))
    fault = r"line \d+: OtherReply\n" if len(lines) > 1 else r"line 1: BadHeader\n"
    if cut.status != NO_TRACE or not re.fullmatch(fault, cut.put):
        raise Fault(f"without its last line it is answered {cut.put!r} with status {cut.status}")


def with_another_digit(line: str) -> Optional[str]:
    """The first line of a reply with another last digit; None where it is no such line, or has none."""
    found = re.fullmatch(r"([0-9]+: .*)([0-9])([^0-9]*)", line)
    if not found:
        return None
    return found[1] + ("1" if found[2] == "0" else "0") + found[3]


def text_of(lines: List[str]) -> str:
    """The lines, each with its end."""
    return "".join(line + "\n" for line in lines)
