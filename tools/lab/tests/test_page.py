"""The page in a browser, where Chromium is there: what a pointer, a finger, the keys and the boxes do."""
from __future__ import annotations

import html
import json
import re
import shutil
import subprocess
import unittest
from typing import Any, Dict, List

from support import COMMITTED, LabTest

CHROMIUM = shutil.which("chromium") or shutil.which("chromium-browser")

#: Uses the page as a reader would, and puts what it then shows into the title.
DRIVE = """
const faults = [];
window.addEventListener("error", (event) => faults.push(event.message));
const key = (name) => document.dispatchEvent(new KeyboardEvent("keydown", { key: name, bubbles: true }));
const aside = () => document.getElementById("told").textContent;
const row = (line) => [...document.querySelectorAll(".rest")].find((rest) => data.rows[rest.dataset.row].line === line);
const data = JSON.parse(document.getElementById("data").textContent);
const box = (name) => document.querySelector(`[data-hides="${name}"]`);
const shown = (selector) => [...document.querySelectorAll("#drawing " + selector)].filter((part) => getComputedStyle(part).display !== "none").length;
const seen = {};
seen.pane = document.getElementById("told").hidden;
seen.hover = row(3).querySelector("title").textContent;
seen.wide = document.getElementById("body").width.baseVal.value <= document.querySelector(".scroller").clientWidth;
row(7).dispatchEvent(new MouseEvent("click", { bubbles: true }));
seen.tap = aside();
seen.shown = !document.getElementById("told").hidden;
key("ArrowDown"); seen.down = aside();
key("End"); seen.end = aside();
key("Home"); seen.home = aside();
key("Escape"); seen.chosen = document.querySelectorAll(".chosen").length;
seen.closed = document.getElementById("told").hidden;
key("v"); seen.verdict = aside();
key("Escape");
seen.buttons = [...document.querySelectorAll("button.verdict")].map((button) => button.textContent);
seen.flags = document.querySelectorAll(".flag").length;
seen.clients = [...document.querySelectorAll(".top .head")].map((head) => head.textContent);
seen.answers = [...document.querySelectorAll("#drawing .answer")].map((answer) => answer.textContent);
const boxes = [...document.querySelectorAll("#drawing .label, #drawing .kind")].map((text) => text.getBoundingClientRect());
const texts = [...document.querySelectorAll("#drawing .label, #drawing .kind")].map((text) => text.textContent);
const overlap = (one, other) => one.left < other.right - 2 && other.left < one.right - 2 &&
  one.top < other.bottom - 3 && other.top < one.bottom - 3;
seen.pairs = boxes.flatMap((one, at) => boxes.flatMap((other, place) => place > at && overlap(one, other) ? [[texts[at], texts[place]]] : []));
seen.overlaps = seen.pairs.length;
seen.cut = boxes.filter((one) => one.right > document.getElementById("body").getBoundingClientRect().right).length;
seen.ink = getComputedStyle(document.querySelector("#drawing .command")).fill;
const bands = [...document.querySelectorAll("#drawing .band")];
const point = (band) => band.querySelector("title").textContent.split("point ")[1];
seen.shades = new Set(bands.map((band) => point(band) + getComputedStyle(band).fill)).size === new Set(bands.map(point)).size;
seen.votes = shown(".k-vote:not(.line)");
box("k-vote").click(); seen.hidden = shown(".k-vote:not(.line)");
box("n1").click(); seen.lane = shown(".secondary.n1");
const body = document.getElementById("body"), wide = body.width.baseVal.value;
document.getElementById("text").click();
seen.narrower = Math.round(wide - body.width.baseVal.value) === data.gutter;
seen.faults = faults;
document.title = JSON.stringify(seen);
"""


@unittest.skipUnless(CHROMIUM, "there is no Chromium here")
class Page(LabTest):
    """The page of a run."""

    def seen(self, lines: List[str], *words: str) -> Dict[str, Any]:
        """What a reader sees of a script's page."""
        self.told("picture", self.file(lines), "-o", "run.html")
        page = self.room / "run.html"
        page.write_text(page.read_text(encoding="utf-8").replace("</body>", f"<script>{DRIVE}</script></body>"), encoding="utf-8")
        options = ["--headless", "--no-sandbox", "--disable-gpu", "--window-size=1400,900", "--virtual-time-budget=2000", *words]
        done = subprocess.run([str(CHROMIUM), *options, f"--user-data-dir={self.room}/browser", "--dump-dom", page.as_uri()],
                              capture_output=True, text=True, timeout=120)
        title = re.search(r"<title>(.*?)</title>", done.stdout, re.S)
        assert title is not None, done.stderr
        seen: Dict[str, Any] = json.loads(html.unescape(title[1]))
        self.assertEqual(seen["faults"], [])
        return seen

    def test_a_reader(self) -> None:
        seen = self.seen(COMMITTED)
        self.assertIn("campaign n0", seen["hover"])
        self.assertIn("Secondary→Candidate, term 0→1", seen["hover"])
        self.assertEqual((seen["pane"], seen["shown"], seen["closed"]), (True, True, True))
        self.assertIn("Line 7", seen["tap"])
        self.assertIn("orders {_id: 1, n: 0}", seen["tap"])
        self.assertIn("Line 9", seen["down"])
        self.assertIn("deliver n0 n2", seen["end"])
        self.assertIn("Line 3", seen["home"])
        self.assertEqual((seen["chosen"], seen["hidden"], seen["lane"], seen["narrower"]), (0, 0, 0, True))
        self.assertGreater(seen["votes"], 4)
        self.assertEqual((seen["overlaps"], seen["cut"], seen["shades"]), (0, 0, True), seen["pairs"])

    def test_clients_and_verdicts(self) -> None:
        seen = self.seen([*COMMITTED, "begin n0 w1 insert orders {_id: 2}", "commit n0 w1", "retry n0 7 1 insert orders {_id: 3}", "read n0 local orders 3",
                          "crash n0", "elect n1"])
        self.assertEqual(seen["clients"], ["n0", "n1", "n2", "client", "w1", "session 7", "reader"])
        self.assertEqual(seen["answers"], ["written 1/0/2", "begun 1/0/3", "committed 1/0/3", "written 1/0/4", "found {_id: 3}"])
        self.assertEqual((seen["buttons"], seen["flags"]), (["dirty-read"], 2))
        self.assertIn("dirty-read: n0 showed 1/0/4 at local; it is lost", seen["verdict"])

    def test_many_nodes(self) -> None:
        seven = self.seen(["set 7", "elect n0", "spread n0", "crash n0", "elect n3", "spread n3"])
        self.assertEqual((seven["wide"], seven["cut"], seven["overlaps"]), (True, 0, 0), seven["pairs"])
        twenty = self.seen(["set 20", "elect n0", "pull n19 n0"])
        self.assertEqual(twenty["cut"], 0)

    def test_dark_where_the_system_is(self) -> None:
        self.assertEqual(self.seen(COMMITTED)["ink"], "rgb(17, 24, 39)")
        self.assertEqual(self.seen(COMMITTED, "--blink-settings=preferredColorScheme=0")["ink"], "rgb(229, 231, 235)")


if __name__ == "__main__":
    unittest.main()
