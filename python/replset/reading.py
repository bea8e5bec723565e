"""Replies out of their texts."""
from __future__ import annotations

from typing import Callable, Dict, List, Sequence, Type

from . import replies
from .bson import parse
from .lab.foreign import ForeignFault
from .lab.notation import NotationFault, read_value
from .optimes import Optime
from .replies import Detail, Entry, Placed, Plain, Reply, Stored

#: What reads a reply: from its words, its text and the lines below it.
Reader = Callable[[List[str], str, Sequence[str]], Reply]


def read_reply(text: str, more: Sequence[str] = ()) -> Reply:
    """The reply that a text tells, with the lines below it; a ValueError where it is none."""
    words = text.split(" ")
    try:
        return _READERS[words[0]](words, text, more)
    except (KeyError, IndexError, ValueError, ForeignFault, NotationFault):
        raise ValueError(f"this is no reply: {text!r}") from None


def _message(word: str) -> int:
    if word[0] != "m":
        raise ValueError(word)
    return int(word[1:])


def _node(word: str) -> int:
    if word[0] != "n":
        raise ValueError(word)
    return int(word[1:])


def _placed(kind: Type[Placed], place: int = 1) -> Reader:
    return lambda words, text, more: kind(Optime.of(words[place]))


def _plain(kind: Type[Plain]) -> Reader:
    reply = kind()

    def read(words: List[str], text: str, more: Sequence[str]) -> Reply:
        if text != str(reply):
            raise ValueError(text)
        return reply

    return read


def _found(words: List[str], text: str, more: Sequence[str]) -> Reply:
    return replies.Found(parse(text[len("found "):]))


def _documents(words: List[str], text: str, more: Sequence[str]) -> Reply:
    return replies.Documents(tuple(map(_stored, more)))


def _stored(line: str) -> Stored:
    collection, told = line.split(" ", 1)
    if told.endswith(" gone"):
        return Stored(collection, None, parse(told[: -len(" gone")]))
    document = parse(told)
    return Stored(collection, document, document["_id"])


def _entries(words: List[str], text: str, more: Sequence[str]) -> Reply:
    return replies.Entries(tuple(map(_entry, more)))


def _entry(line: str) -> Entry:
    place, kind, told = line.split(" ", 2)
    if kind == "n":
        return Entry(Optime.of(place), kind, None, None, parse(told))
    collection, told = told.split(" ", 1)
    if kind == "u":
        end = read_value(told, 0)
        return Entry(Optime.of(place), kind, collection, parse(told[:end]), parse(told[end + 1 :]))
    document = parse(told)
    return Entry(Optime.of(place), kind, collection, document["_id"], document)


def _state(words: List[str], text: str, more: Sequence[str]) -> Reply:
    term, version = words[15].split("/")
    last, durable, applied, commit = (Optime.of(words[place]) for place in (7, 9, 11, 13))
    vote = None if words[5] == "none" else _node(words[5])
    config = (int(term), int(version))
    return replies.State(words[1], int(words[3]), vote, last, durable, applied, commit, config, int(words[17]))


def _sent(words: List[str], text: str, more: Sequence[str]) -> Reply:
    return replies.Sent(_message(words[1]), _node(words[3]) if len(words) > 2 else None)


def _configured(words: List[str], text: str, more: Sequence[str]) -> Reply:
    term, version = words[1].split("/")
    return replies.Configured(int(term), int(version))


def _vote_refused(words: List[str], text: str, more: Sequence[str]) -> Reply:
    if words[1] != "refused":
        raise ValueError(text)
    return replies.VoteRefused(words[2])


def _refused(words: List[str], text: str, more: Sequence[str]) -> Reply:
    return replies.Refused(int(words[1]), words[2], tuple(map(_detail, words[3:])))


def _detail(word: str) -> Detail:
    if word.isdecimal():
        return int(word)
    return Optime.of(word) if "/" in word else word


_READERS: Dict[str, Reader] = {
    "written": _placed(replies.Written),
    "begun": _placed(replies.Begun),
    "committed": _placed(replies.Committed),
    "acked": _placed(replies.Acked),
    "checkpoint": _placed(replies.Checkpointed),
    "counted": _placed(replies.Counted, 2),
    "up": _placed(replies.Up, 2),
    "aborted": _plain(replies.Aborted),
    "matched": _plain(replies.Unmatched),
    "unchanged": _plain(replies.Unchanged),
    "missing": _plain(replies.Missing),
    "secondary": _plain(replies.Secondary),
    "heard": _plain(replies.Heard),
    "down": _plain(replies.Down),
    "armed": _plain(replies.Armed),
    "found": _found,
    "documents": _documents,
    "entries": _entries,
    "state": _state,
    "candidate": lambda words, text, more: replies.Candidate(int(words[1]), _message(words[3]), int(words[4])),
    "dryrun": lambda words, text, more: replies.DryRun(int(words[1]), _message(words[3]), int(words[4])),
    "won": lambda words, text, more: replies.Won(int(words[1])),
    "primary": lambda words, text, more: replies.Primary(int(words[1]), Optime.of(words[3])),
    "sent": _sent,
    "replied": lambda words, text, more: replies.Replied(_message(words[1])),
    "votes": lambda words, text, more: replies.Votes(int(words[1]), int(words[3])),
    "dry": lambda words, text, more: replies.DryVotes(int(words[2]), int(words[4])),
    "vote": _vote_refused,
    "took": lambda words, text, more: replies.Took(int(words[1]), Optime.of(words[3])),
    "rolled": lambda words, text, more: replies.RolledBack(Optime.of(words[3]), int(words[5])),
    "ignored": lambda words, text, more: replies.Ignored(words[1]),
    "applied": lambda words, text, more: replies.Applied(int(words[1]), Optime.of(words[3])),
    "flushed": lambda words, text, more: replies.Flushed(int(words[1]), Optime.of(words[3])),
    "config": _configured,
    "clock": lambda words, text, more: replies.Clock(int(words[1])),
    "refused": _refused,
}
