"""Pictures, and that those of the docs are as they must be."""
from __future__ import annotations

import json
import re
import unittest
from typing import List
from xml.dom import minidom

from support import COMMITTED, TOP, LabTest, script_by_chance

from lab.cookbook import out_of_date
from lab.layout import Picture, picture_of, sides_of
from lab.expand import expand
from lab.observe import observe

PARTED = [*COMMITTED, "partition n0 | n1 n2", "update n0 orders 1 {$set: {n: 1}}", "elect n1", "heal", "pull n0 n1"]


class Layout(unittest.TestCase):
    """What stands in a picture."""

    def picture(self, lines: List[str]) -> Picture:
        """The picture of a short script."""
        plain = expand(lines).lines
        return picture_of(observe(plain), 1, len(plain))

    def test_a_partition_is_shaded(self) -> None:
        picture = self.picture(PARTED)
        parted = {(shade.node, shade.side) for shade in picture.shades}
        self.assertEqual(parted, {(1, 1), (2, 1)})
        captions = {row.text: place for place, row in enumerate(picture.rows) if row.caption}
        wanted = {(captions["partition n0 | n1 n2"] + 1, captions["heal"] + 1)}
        self.assertEqual({(shade.top, shade.bottom) for shade in picture.shades}, wanted)
        self.assertEqual(sides_of("partition n0 | n3", 5), {0: 0, 1: 2, 2: 2, 3: 1, 4: 2})
        self.assertIsNone(sides_of("partition the disks", 5))

    def test_roles_follow_what_the_replies_hide(self) -> None:
        lanes = [segment.role for segment in self.picture(PARTED).segments if segment.node == 0]
        self.assertEqual(lanes, ["Secondary", "Candidate", "Draining", "Primary", "Secondary"])

    def test_messages(self) -> None:
        picture = self.picture(PARTED)
        bad = [(arrow.sender, arrow.receiver, arrow.label) for arrow in picture.arrows if arrow.bad]
        self.assertEqual(bad, [(1, 0, "entries")])
        lost = [(stub.sender, stub.receivers) for stub in picture.stubs if stub.label == "vote?"]
        self.assertEqual(lost, [(0, [2]), (1, [0])])

    def test_the_rollback_and_the_commit_points(self) -> None:
        picture = self.picture(PARTED)
        self.assertEqual([mark.node for mark in picture.marks if mark.shape == "cut"], [0])
        self.assertIn("cut to 1/0/2, 1 lost", [label.text for label in picture.labels])
        self.assertEqual([band.commit for band in picture.bands if band.node == 2], ["1/0/2"])

    def test_a_node_that_is_down_has_no_lane(self) -> None:
        lanes = [segment.role for segment in self.picture(["set 2", "crash n1", "restart n1"]).segments if segment.node == 1]
        self.assertEqual(lanes, ["Secondary", "Down", "Secondary"])

    def test_a_block_is_framed(self) -> None:
        lines = ["set 1", "elect n0", "par", "thread", "insert n0 t {_id: 1}", "thread", "insert n0 t {_id: 2}", "end"]
        picture = self.picture(lines)
        self.assertEqual([frame.bottom - frame.top for frame in picture.frames], [3])

    def test_a_new_member_is_asked(self) -> None:
        """Whom a candidate asks follows from the configuration that it has."""
        config = '{"version":2,"members":[{"_id":0},{"_id":1},{"_id":2}]}'
        lines = ["set 3 2", "elect n0", "spread n0", f"reconfig n0 {config}", "spread n0", "campaign n1"]
        plain = expand(lines).lines
        self.assertEqual([message.receiver for message in observe(plain).steps[-1].sent], [0, 2])


class Messages(unittest.TestCase):
    """Whom each message goes to, which the replies don't tell of a candidate's."""

    def test_the_numbers_are_those_of_the_replies(self) -> None:
        examples = [path.read_text(encoding="utf-8") for path in (TOP / "examples").glob("*.replset")]
        members = [example.splitlines() for example in examples if "reconfig" in example]
        self.assertGreater(len(members), 3)
        for lines in [*members, script_by_chance(5, 1500)]:
            for step in observe(lines).steps:
                said = re.search(r"(?:sent|replied) m(\d+)(?: (\d+))?(?: to n\d+)?$", step.reply.text)
                count = int(said[2] or 1) if said else 0
                self.assertEqual(len(step.sent), count, step)
                if said and count:
                    self.assertEqual(step.sent[0].number, int(said[1]), step)


class Files(LabTest):
    """`lab picture`."""

    def test_svg_is_xml(self) -> None:
        self.told("picture", self.file(PARTED), "-o", "run.svg")
        text = (self.room / "run.svg").read_text(encoding="utf-8")
        self.assertEqual(minidom.parseString(text).documentElement.tagName, "svg")

    def test_page_asks_no_other_host_and_has_its_data(self) -> None:
        self.told("picture", self.file(PARTED), "-o", "run.html")
        text = (self.room / "run.html").read_text(encoding="utf-8")
        self.assertEqual(re.findall(r'(?:src|href)="(?!#)[^"]*"|url\((?!#)|@import|fetch\(|https?://(?!www\.w3\.org)', text), [])
        self.assertNotIn("{{", re.sub(r'<script id="data".*?</script>', "", text, flags=re.S).replace("{{_id", ""))
        found = re.search(r'<script id="data" type="application/json">(.*?)</script>', text, re.S)
        assert found is not None
        data = json.loads(found[1])
        rolled = [row for row in data["rows"] if row and row["reply"].startswith("rolled back")]
        self.assertIn("rollback 0→1", rolled[0]["change"])
        self.assertEqual(data["documents"][rolled[0]["documents"]], ["orders {_id: 1, n: 0}"])

    def test_text_of_a_script_cannot_break_the_page(self) -> None:
        self.told("picture", self.file(["set 1", "elect n0", 'insert n0 t {_id: "</script><b>&"}', "# <i>"]), "-o", "run.html")
        text = (self.room / "run.html").read_text(encoding="utf-8")
        self.assertEqual(text.count("</script>"), 2)
        self.assertNotIn("<b>&", text)

    def test_a_long_script_shows_a_part(self) -> None:
        name = self.file(script_by_chance(5, 5000))
        self.assertIn("lines 1 to 500 of 5000", self.told("picture", name, "-o", "run.html"))
        self.assertIn("lines 4000 to 4100 of 5000", self.told("picture", name, "-o", "run.svg", "--lines", "4000-4100"))

    def test_pictures_in_docs_are_up_to_date(self) -> None:
        late = [str(path.relative_to(TOP)) for path, _ in out_of_date()]
        self.assertEqual(late, [], "tools/lab/refresh makes these anew")


if __name__ == "__main__":
    unittest.main()
