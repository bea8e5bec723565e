"""A MongoDB replica set inside of this process: step it, look at it, copy it, go back.

    >>> from replset import Set
    >>> s = Set(nodes=3)
    >>> s.elect(0)[-1]
    Primary(term=1, optime=Optime(term=1, seconds=0, increment=1))
    >>> written = s.insert(0, "orders", {"_id": 1, "paid": True})
    >>> s.ack(0, written)
    Refused(number=15, name='Waiting', details=(0, 2))

What is done is a script, which `replset run` plays in the same way. Nothing happens by itself, and nothing is
random.
"""
from . import bson, replies
from .faults import BadLine, NoLibrary, Stopped
from .lab.verdicts import Verdict
from .optimes import ZERO, Optime
from .reading import read_reply
from .replies import Reply
from .sets import Message, Replies, Set, play
from .writes import Write, delete, insert, replace, update

__version__ = "1.0"

__all__ = [
    "ZERO", "BadLine", "Message", "NoLibrary", "Optime", "Replies", "Reply", "Set", "Stopped", "Verdict", "Write", "bson",
    "delete", "insert", "play", "read_reply", "replace", "replies", "update",
]
