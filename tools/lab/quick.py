"""Runs a program on an input many times over, with as little round it as can be: input and output are files in memory, which
are kept, and nothing of Python is started for a run."""
from __future__ import annotations

import os
import tempfile
import threading
from typing import Sequence, Tuple

_kept = threading.local()


def _file(name: str) -> int:
    """A file without a name, in memory where the system has such files."""
    if hasattr(os, "memfd_create"):
        return os.memfd_create(name)
    with tempfile.TemporaryFile() as made:
        return os.dup(made.fileno())


def _files() -> Tuple[int, int, int]:
    """Input, output, and where errors go, of this thread of this process: what is forked must not share them."""
    if getattr(_kept, "process", None) != os.getpid():
        _kept.process = os.getpid()
        _kept.files = _file("input"), _file("output"), os.open(os.devnull, os.O_WRONLY)
    files: Tuple[int, int, int] = _kept.files
    return files


def _put(file: int, content: bytes) -> None:
    """Makes this the file's content, to be read or written from its front."""
    os.ftruncate(file, 0)
    os.lseek(file, 0, os.SEEK_SET)
    rest = memoryview(content)
    while rest:
        rest = rest[os.write(file, rest) :]
    os.lseek(file, 0, os.SEEK_SET)


def run(program: str, words: Sequence[str], given: bytes) -> Tuple[int, bytes]:
    """The status and the output of a program. A signal that ended it is a status below 0."""
    source, sink, errors = _files()
    _put(source, given)
    _put(sink, b"")
    actions = [(os.POSIX_SPAWN_DUP2, file, place) for place, file in enumerate((source, sink, errors))]
    child = os.posix_spawn(program, [program, *words], os.environ, file_actions=actions)
    _, ended = os.waitpid(child, 0)
    return os.waitstatus_to_exitcode(ended), os.pread(sink, os.fstat(sink).st_size, 0)
