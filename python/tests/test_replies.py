"""Replies out of their texts, and back."""
from __future__ import annotations

import re
import unittest
from typing import Iterator, List, Tuple

from support import TOP

from replset import Optime, read_reply, replies
from replset.lab.transcript import read_transcript

#: What stands in the reference for what a reply tells.
TOLD = {
    "{..}": "{a: 1}", "ROLE": "Primary", "OPTIME": "1/0/2", "TERM/VERSION": "1/2", "T/V": "1/2", "TERM": "3", "DOCUMENT": "{_id: 1}",
    "REASON": "OldTerm", "SECONDS": "5", "mK": "m4", "nJ": "n1", " T ": " 3 ", " V ": " n1 ", " O ": " 1/0/2 ", " R": " 0",
    "NAME ..": "NoId", "N": "2", "Y": "1",
}


def headings(section: str) -> Iterator[str]:
    """What the reference has headings for in a section."""
    page = (TOP / "docs" / "REFERENCE.md").read_text()
    part = re.search(rf"^## {section}$(.*?)^## ", page, re.MULTILINE | re.DOTALL)
    assert part is not None
    return iter(re.findall(r"^### `(.*)`$", part[1], re.MULTILINE))


def filled(heading: str) -> str:
    """A heading as a reply would read."""
    text = heading
    for name, told in TOLD.items():
        pattern = re.escape(name) if name.startswith((" ", "{")) else rf"(?<![A-Za-z]){re.escape(name)}(?![A-Za-z])"
        for _ in range(4):
            text = re.sub(pattern, told, text)
    return text


def texts() -> Iterator[Tuple[str, List[str]]]:
    """All replies of the examples' transcripts."""
    for path in sorted((TOP / "examples").glob("*.out")):
        text = path.read_text()
        if not text.startswith("line "):
            yield from ((reply.text, list(reply.more)) for reply in read_transcript(text).replies)


class Texts(unittest.TestCase):
    """Every text is read, and told as it was."""

    def test_all_replies_of_the_examples(self) -> None:
        count = 0
        for text, more in texts():
            reply = read_reply(text, more)
            self.assertEqual(str(reply), text)
            self.assertEqual(list(getattr(reply, "more", ())), more)
            self.assertEqual(reply.refused, text.startswith("refused "))
            count += 1
        self.assertGreater(count, 1000)

    def test_all_replies_of_the_reference(self) -> None:
        for heading in headings("Replies"):
            text = filled(heading)
            more = ["t {_id: 1}"] * 2 if text.startswith("documents") else ["1/0/1 n {msg: \"note\"}"] * 2
            reply = read_reply(text, more if text.startswith(("documents", "entries")) else [])
            self.assertEqual(str(reply), text, heading)

    def test_all_refusals_of_the_reference(self) -> None:
        for heading in headings("Refusals"):
            text = "refused " + " ".join({"wK": "w1", "OPTIME": "1/0/2"}.get(word, word if word in heading.split()[:2] else "7")
                                         for word in heading.split())
            reply = read_reply(text)
            assert isinstance(reply, replies.Refused)
            self.assertEqual(str(reply), text)

    def test_values(self) -> None:
        self.assertEqual(read_reply("written 1/0/2"), replies.Written(Optime(1, 0, 2)))
        self.assertEqual(read_reply("refused 15 Waiting 1 2"), replies.Refused(15, "Waiting", (1, 2)))
        self.assertNotEqual(read_reply("written 1/0/2"), read_reply("acked 1/0/2"))
        self.assertEqual(read_reply("found {_id: 5L, a: [null]}"), replies.Found({"_id": 5, "a": [None]}))
        entries = read_reply("entries 1", ['1/0/2 u t "a b" {$v: 1, $set: {n: 1}}'])
        assert isinstance(entries, replies.Entries)
        self.assertEqual((entries.items[0].id, entries.items[0].document), ("a b", {"$v": 1, "$set": {"n": 1}}))
        rolled = read_reply("documents 2", ['t "gone" gone', "t {_id: 2}"])
        assert isinstance(rolled, replies.Documents)
        self.assertEqual([one.document for one in rolled.items], [None, {"_id": 2}])
        self.assertEqual(rolled.of("t"), ({"_id": 2},))

    def test_what_is_no_reply(self) -> None:
        for text in ("", "wrote 1/0/2", "written", "written 1/0", "sent 4", "matched 1", "found {", "vote for", "state Primary"):
            with self.assertRaises(ValueError, msg=text):
                read_reply(text)


if __name__ == "__main__":
    unittest.main()
