"""Which documents a node has after the lines of a run, found by `dump` lines that are put in and taken out again."""
from __future__ import annotations

from typing import Dict, List, Optional, Tuple

from .observe import Run, Step
from .program import play
from .script import WRITES

#: More documents than these at one node aren't listed.
MOST = 60

#: What a node has is dumped after these; a delivery may roll back or end a primary.
CHANGING = (*WRITES, "retry", "commit", "abort", "apply", "drain", "stepdown", "restart", "deliver")

Documents = Tuple[str, ...]


def documents_after(run: Run, first: int, last: int) -> Optional[Dict[int, Documents]]:
    """For each line that may change what its node shows, the documents at that node then; none where there are too many."""
    ends = play([*run.lines, *(f"dump n{node} local" for node in range(run.size.nodes))])
    if any(len(reply.more) > MOST for reply in ends.replies[-run.size.nodes :]):
        return None
    lines, asked = _with_dumps(run, first, last)
    found: Dict[int, Documents] = {}
    transcript = play(lines)
    for place, number in asked.items():
        reply = transcript.by_line[place]
        found[number] = ("(the node is down)",) if reply.refused else cut_short(reply.more)
    return found


def cut_short(documents: Documents) -> Documents:
    """At most so many documents, and how many more there are."""
    return documents if len(documents) <= MOST else (*documents[:MOST], f".. and {len(documents) - MOST} more")


def _with_dumps(run: Run, first: int, last: int) -> Tuple[List[str], Dict[int, int]]:
    """The script with `dump` lines outside its blocks, and of each of these the line that it stands after."""
    steps = run_steps(run)
    lines: List[str] = []
    asked: Dict[int, int] = {}
    in_block = False
    for number, line in enumerate(run.lines, 1):
        lines.append(line)
        in_block = line.startswith("par") or (in_block and not line.startswith("end"))
        step = steps.get(number)
        if step is None or step.node is None or in_block or not first <= number <= last:
            continue
        if step.word in CHANGING and (step.word != "deliver" or step.before != step.after):
            lines.append(f"dump n{step.node} local")
            asked[len(lines)] = number
    return lines, asked


def run_steps(run: Run) -> Dict[int, Step]:
    """The steps of a run by the numbers of their lines."""
    return {step.line: step for step in run.steps}
