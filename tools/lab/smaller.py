"""Makes a script smaller while it still does something: drops ever smaller runs of lines, until each line is needed."""
from __future__ import annotations

from concurrent.futures import ThreadPoolExecutor
from typing import Callable, List, Sequence

from .observe import observe
from .script import is_silent, words_of

#: Whether a list of lines still does it.
Test = Callable[[List[str]], bool]


def named_by_nodes(lines: Sequence[str]) -> List[str]:
    """The script with `deliver mK` made `deliver A B` wherever message K is the newest from A to B then.

    Numbers of messages change as lines go, so that a delivery by number would soon be of another message.
    """
    run = observe(lines, len(lines) + 1)
    changed = list(lines)
    sent = sorted(run.mail.messages, key=lambda message: message.number)
    order = {step.line: place for place, step in enumerate(run.steps)}
    newest, next_message = {}, 0
    for step in run.steps:
        words = words_of(step.text)
        while next_message < len(sent) and order[sent[next_message].line] < order[step.line]:
            newest[sent[next_message].sender, sent[next_message].receiver] = sent[next_message].number
            next_message += 1
        message = step.message
        if words[0] == "deliver" and len(words) == 2 and message is not None:
            if newest.get((message.sender, message.receiver)) == message.number:
                changed[step.line - 1] = f"deliver n{message.sender} n{message.receiver}"
    return changed


def shortest_front(lines: List[str], test: Test) -> List[str]:
    """The lines up to the first place after which the rest isn't needed, where halving finds it."""
    too_few, enough = 0, len(lines)
    while enough - too_few > 1:
        middle = (too_few + enough) // 2
        if test(lines[:middle]):
            enough = middle
        else:
            too_few = middle
    return lines[:enough]


def smallest(lines: Sequence[str], test: Test, jobs: int, step: Callable[[int], None]) -> List[str]:
    """A script that still does it, of which no line can be left out. `step` is told how many lines are left."""
    kept = shortest_front([line for line in lines if not is_silent(line)], test)
    with ThreadPoolExecutor(max_workers=jobs) as workers:
        size = max(1, len(kept) // 2)
        while True:
            shorter = _pass(kept, size, test, jobs, workers, step)
            if len(shorter) == len(kept) and size == 1:
                return shorter
            # What went may have been what kept other lines needed, so a pass by single lines comes until none goes.
            size = max(1, min(size // 2, len(shorter) // 2))
            kept = shorter


def _pass(kept: List[str], size: int, test: Test, jobs: int, workers: ThreadPoolExecutor, step: Callable[[int], None]) -> List[str]:
    """Goes once over the script from its end, and leaves out each run of so many lines that isn't needed.

    Several runs are tried at a time. Of those the last one that isn't needed goes, and what stands before it is tried anew.
    """
    end = len(kept)
    while end > 1:
        begins = [max(1, end - size * (place + 1)) for place in range(jobs) if end - size * place > 1]
        tries = [kept[:begin] + kept[begin + min(size, end - size * place - begin) :] for place, begin in enumerate(begins)]
        answers = list(workers.map(test, tries))
        gone = next((place for place, answer in enumerate(answers) if answer), None)
        if gone is None:
            end = begins[-1]
        else:
            kept, end = tries[gone], begins[gone]
        step(len(kept))
    return kept
