"""Does much work side by side, in processes that are forked for it."""
from __future__ import annotations

import gc
import os
import pickle
import signal
from itertools import islice
from typing import Any, BinaryIO, Callable, Iterable, Iterator, List, NoReturn, Tuple, TypeVar

from .errors import LabError

Item = TypeVar("Item")
Answer = TypeVar("Answer")

#: Of so much that is made Python looks at once for what nothing holds any more.
GARBAGE = 100_000

#: So many items are done by one process before the next has its turn, where nothing else is said.
AT_A_TIME = 8


def in_order(work: Callable[[Item], Answer], items: Iterable[Item], jobs: int) -> Iterator[Tuple[Item, Answer]]:
    """Each item with what the work on it gives, in the order of the items."""
    return some_in_order(lambda some: [work(item) for item in some], items, jobs, AT_A_TIME)


def some_in_order(
    work: Callable[[List[Item]], List[Answer]], items: Iterable[Item], jobs: int, at_a_time: int
) -> Iterator[Tuple[Item, Answer]]:
    """The same, where the work is on so many items that follow one another.

    Every process goes over the items by itself, and does those whose turn is its own. So nothing is handed to it."""
    some = _parts(items, at_a_time)
    if jobs <= 1 or not hasattr(os, "fork"):
        for part in some:
            yield from zip(part, work(part))
        return
    workers = [_forked(work, some, place, jobs) for place in range(jobs)]
    try:
        for turn, part in enumerate(some):
            yield from zip(part, _answers(workers[turn % jobs][1]))
    finally:
        for child, pipe in workers:
            pipe.close()
            os.kill(child, signal.SIGKILL)
            os.waitpid(child, 0)


def _parts(items: Iterable[Item], size: int) -> Iterator[List[Item]]:
    """The items, so many at a time."""
    left = iter(items)
    part = list(islice(left, size))
    while part:
        yield part
        part = list(islice(left, size))


def _answers(pipe: BinaryIO) -> List[Any]:
    try:
        answers: Any = pickle.load(pipe)
    except EOFError:
        raise RuntimeError("a worker ended too soon") from None
    if isinstance(answers, LabError):
        raise answers
    return list(answers)


def _forked(
    work: Callable[[List[Any]], List[Any]], some: Iterator[List[Any]], place: int, jobs: int
) -> Tuple[int, BinaryIO]:
    """A process that does the work whose turn is at this place, and the pipe by which it answers."""
    read, write = os.pipe()
    child = os.fork()
    if child == 0:
        os.close(read)
        _work(work, some, place, jobs, os.fdopen(write, "wb"))
    os.close(write)
    return child, os.fdopen(read, "rb")


def _work(
    work: Callable[[List[Any]], List[Any]], some: Iterator[List[Any]], place: int, jobs: int, pipe: BinaryIO
) -> NoReturn:
    """What a process does until it has no more. The one that forked it hears interrupts, and ends it."""
    signal.signal(signal.SIGINT, signal.SIG_IGN)
    # What is there stays, and little of what comes is in circles.
    gc.freeze()
    gc.set_threshold(GARBAGE)
    try:
        for turn, part in enumerate(some):
            if turn % jobs == place:
                pickle.dump(_done(work, part), pipe)
                pipe.flush()
        os._exit(0)
    except BrokenPipeError:
        os._exit(0)
    finally:
        os._exit(1)


def _done(work: Callable[[List[Any]], List[Any]], part: List[Any]) -> Any:
    try:
        return work(part)
    except LabError as fault:
        return fault
