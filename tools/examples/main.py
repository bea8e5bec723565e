"""Has all of it checked side by side, and tells what is wrong."""
from __future__ import annotations

import os
from concurrent.futures import ThreadPoolExecutor
from subprocess import SubprocessError
from typing import List, Optional, Tuple

from . import blocks, ends, folder, generated, large_blocks, limits, repeated, scripts, traces
from .playing import Fault, Program, Task
from .programs import Missing, found, printer_of_scripts

#: What takes longest comes first.
PARTS = (large_blocks, limits, generated, repeated, blocks, traces, scripts, ends)


def main() -> int:
    """Plays all, and gives the status."""
    try:
        programs = [Program(path) for path in found()]
    except Missing as why:
        print(f"examples: {why}")
        return 1
    faults = folder.strays() + faults_of(programs)
    for fault in faults:
        print(f"examples: {fault}")
    if faults:
        return 1
    if not printer_of_scripts():
        print("examples: seed_script isn't built, so generated scripts are known by their summaries alone")
    print(f"examples: {counted()} are as written by {' and '.join(program.name for program in programs)}")
    return 0


def faults_of(programs: List[Program]) -> List[str]:
    """What the programs do wrong."""
    asked = [(program, task) for part in PARTS for task in part.tasks() for program in programs]
    with ThreadPoolExecutor(os.cpu_count()) as pool:
        return [fault for fault in pool.map(fault_of, asked) if fault]


def fault_of(asked: Tuple[Program, Task]) -> Optional[str]:
    """What a program does wrong in a task, if anything."""
    program, task = asked
    try:
        task.check(program)
    except Fault as fault:
        return f"{program.name}: {task.what}: {fault}"
    except (OSError, SubprocessError, ValueError, LookupError) as fault:
        return f"{program.name}: {task.what}: {type(fault).__name__} {fault}"
    return None


def counted() -> str:
    """What lies in the folder."""
    tables = sum(len(folder.names(ending)) for ending in ("table", *folder.QUESTIONS))
    return f"{len(folder.names())} scripts, {len(folder.names('trace'))} traces and {tables} tables"
