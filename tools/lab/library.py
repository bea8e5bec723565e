"""Sets inside of this process, by the library of this repository where one is built. Its C interface is known
here alone."""
from __future__ import annotations

import ctypes
import os
import threading
from pathlib import Path
from typing import Any, Dict, NamedTuple, Optional, Tuple

#: What a call answers.
OK, BAD_LINE, MEMORY, BAD_SIZES, BAD_CALL, NO_SET = range(6)
STEP, STEPS, ASK, SCRIPT, TRACE, MESSAGES, LINE, TEXT = range(1, 9)

#: Texts up to this size come with the call that makes them.
ROOM = 1 << 16

NAME = "libreplset.so"


class NoLibrary(RuntimeError):
    """There is no library to call."""


class _Interface:
    """The functions of a loaded library. With `locked` Python's lock is kept in a call, so that a set and its
    copies are never on two threads at once."""

    def __init__(self, path: str, locked: bool):
        loaded: Any = (ctypes.PyDLL if locked else ctypes.CDLL)(path)
        number, pointer, size = ctypes.c_uint32, ctypes.c_void_p, ctypes.c_size_t
        handle = ctypes.POINTER(pointer)
        self.open, self.copy = loaded.replset_open, loaded.replset_copy
        self.free, self.call = loaded.replset_free, loaded.replset_call
        self.open.argtypes = [number, number, number, number, handle]
        self.copy.argtypes = [handle, handle]
        self.free.argtypes = [handle]
        self.call.argtypes = [handle, number, ctypes.c_uint64, ctypes.c_char_p, size, pointer, size, ctypes.POINTER(size)]
        self.open.restype = self.copy.restype = self.call.restype = number
        self.free.restype = None


class _Room(threading.local):
    """Where a call's text goes: of each thread its own."""

    def __init__(self) -> None:
        self.text: Any = ctypes.create_string_buffer(ROOM)
        self.address = ctypes.addressof(self.text)
        self.size = ctypes.c_size_t()
        self.told = ctypes.byref(self.size)


_room = _Room()
_loaded: Dict[Tuple[str, bool], _Interface] = {}
_found: Dict[Optional[str], Optional[str]] = {}


def find_library() -> Optional[str]:
    """The path of the library: what REPLSET_LIBRARY names (nothing, where it is empty), else the one that
    stands beside this."""
    named = os.environ.get("REPLSET_LIBRARY")
    if named not in _found:
        _found[named] = _search(named)
    return _found[named]


def _search(named: Optional[str]) -> Optional[str]:
    if named is not None:
        return os.path.abspath(named) if named else None
    here = Path(__file__)
    # In a package that carries it, it stands beside this folder.
    for place in (here.parent.parent / NAME, here.resolve().parents[2] / "build" / NAME):
        if place.is_file():
            return str(place)
    return None


def _interface(locked: bool) -> _Interface:
    path = find_library()
    if path is None:
        raise NoLibrary(f"there is no {NAME}: 'tools/build_library build/{NAME}' builds one, and REPLSET_LIBRARY names one elsewhere")
    if (path, locked) not in _loaded:
        try:
            _loaded[path, locked] = _Interface(path, locked)
        except (OSError, AttributeError) as fault:
            raise NoLibrary(f"{path} can't be loaded: {fault}") from None
    return _loaded[path, locked]


class Answer(NamedTuple):
    """What a call answers, and its text."""

    status: int
    text: bytes


class Held:
    """A set of the library. It is given back when nothing holds it any more, or by `close`."""

    def __init__(self, interface: _Interface, handle: "ctypes.c_void_p"):
        self._interface = interface
        self._handle: Optional[Any] = ctypes.byref(handle)

    def call(self, number: int, line: bytes = b"", first: int = 0) -> Answer:
        """One call by its number."""
        if self._handle is None:
            raise ValueError("this set was closed")
        room = _room
        status = self._interface.call(self._handle, number, first, line, len(line), room.address, ROOM, room.told)
        size: int = room.size.value
        if status == MEMORY:
            raise MemoryError("the library ran out of memory")
        text: bytes = room.text[: min(size, ROOM)]
        return Answer(status, text if size <= ROOM else text + self._rest(size - ROOM))

    def _rest(self, size: int) -> bytes:
        text = ctypes.create_string_buffer(size)
        self._interface.call(self._handle, TEXT, ROOM, b"", 0, ctypes.addressof(text), size, _room.told)
        return text.raw

    def copy(self) -> "Held":
        """An independent set that has come just as far."""
        if self._handle is None:
            raise ValueError("this set was closed")
        made = ctypes.c_void_p()
        if self._interface.copy(self._handle, ctypes.byref(made)) != OK:
            raise MemoryError("the library ran out of memory")
        return Held(self._interface, made)

    def copy_to(self, other: "Held") -> None:
        """Makes another such a set, and gives back what it was."""
        if self._handle is None or other._handle is None:
            raise ValueError("this set was closed")
        if self._interface.copy(self._handle, other._handle) != OK:
            raise MemoryError("the library ran out of memory")

    @property
    def closed(self) -> bool:
        """Whether it was given back."""
        return self._handle is None

    def close(self) -> None:
        """Gives it back. It can't be called any more."""
        handle, self._handle = self._handle, None
        if handle is not None:
            self._interface.free(handle)

    def __del__(self) -> None:
        self.close()


def open_set(nodes: int, voters: int, members: int, line: int = 1, locked: bool = True) -> Held:
    """A set of these sizes, whose `set` line has that number; a ValueError where there is none of these
    sizes."""
    interface = _interface(locked)
    made = ctypes.c_void_p()
    status = BAD_SIZES
    if all(0 <= number < 2**32 for number in (nodes, voters, members, line)):
        status = interface.open(nodes, voters, members, line, ctypes.byref(made))
    if status == MEMORY:
        raise MemoryError("the library ran out of memory")
    if status != OK:
        raise ValueError(f"there is no set of {nodes} nodes with {voters} voters and {members} members")
    return Held(interface, made)
