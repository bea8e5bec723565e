"""What the page must do, tried in a browser against the program and the lab of this checkout."""
import json
import re
import statistics
import sys
import time
from pathlib import Path

from lab.errors import LabError
from lab.expand import expand
from lab.fates import read_fates
from lab.program import find_program, run_program, script_bytes
from lab.script import is_silent, split_lines
from lab.show import printable
from lab.telling import what_happened
from lab.traces import verdict_of
from lab.verdicts import verdicts

from .chromium import Failed
from .short_scripts import script_of

TOP = Path(__file__).resolve().parents[3]

#: A reply stands beside its line within so many milliseconds, in the middle of many lines.
LONGEST = 50

RUN = "async (words, raw) => { const { status, output } = await page.asking.ask('run', { words, raw }); return [status, [...output]]; }"
SHORT_RUN = "async (raw) => { const { status, output } = await page.asking.ask('run', { words: ['run'], raw }); return [status, output.length]; }"
EXPAND = """async (text) => {
  const told = await page.asking.ask('script', { text });
  return [told.fault && [told.fault.line, told.fault.told[0]], [...await page.asking.ask('plain')]];
}"""
TYPED = """async (lines) => {
  const area = document.getElementById('text'), root = document.documentElement, times = [];
  const shown = (line) => [...document.querySelectorAll('#replies .reply')].some((one) => Number(one.dataset.line) === line && one.textContent);
  for (const line of lines) {
    await new Promise((done) => setTimeout(done, 400));
    const began = performance.now(), count = area.value.split('\\n').length + 1;
    area.setRangeText('\\n' + line, area.value.length, area.value.length, 'end');
    area.dispatchEvent(new InputEvent('input'));
    page.editor.goTo(count, false, false);
    while (!shown(count)) await new Promise((done) => { const see = new MutationObserver(() => { see.disconnect(); done(); }); see.observe(root, { attributes: true }); see.observe(document.getElementById('replies'), { childList: true }); });
    times.push(performance.now() - began);
  }
  return times;
}"""
OPEN = "async (text) => { page.open(text); await new Promise((done) => setTimeout(done, 50)); }"
IDLE = "page.idle"


def _read(name):
    return (TOP / name).read_bytes()


def _files():
    """All examples and the cookbook's scripts, by their names."""
    return sorted((TOP / "examples").glob("*.replset")) + sorted((TOP / "docs" / "cookbook").glob("*.lab"))


def _has_block(raw):
    return re.search(rb"^par\r?$", raw, re.M) is not None


def _in_page(page, words, raw):
    status, output = page.call(RUN, words, raw)
    return status, bytes(output)


def _lines(raw):
    return split_lines(raw.decode("utf-8", "surrogateescape"))


def replies_and_traces(page, *_):
    """Every example and every script of the cookbook, as the program plays it; each trace is one for the program's `check`."""
    for path in _files():
        raw = script_bytes(expand(_lines(path.read_bytes())).lines) if path.suffix == ".lab" else path.read_bytes()
        native = run_program(["run"], raw)
        status, output = _in_page(page, ["run"], raw)
        if status != native.returncode or output != native.stdout and not _has_block(raw):
            yield f"{path.name}: the page prints something else than the program"
        status, trace = _in_page(page, ["trace"], raw)
        said = run_program(["check"], trace).stdout
        if status == 0 and not said.startswith(b"yes "):
            yield f"{path.name}: the page's trace is none: {said.decode()}"


def _expanded(lines):
    """What the lab makes of a short script: its plain lines, or the line at fault."""
    try:
        script = expand(lines)
        script.play()
        return None, script_bytes(script.lines)
    except LabError as fault:
        line = getattr(fault, "line", None)
        return (line or int(re.match(r"line (\d+): ", fault.sentence)[1]), fault.sentence), b""


def _differs(page, lines):
    """Whether the page makes something else of a script. Of several faults it tells the first, and the lab the one that it meets
    first: a macro that is misspelt before a plain line above it that is none."""
    fault, plain = _expanded(lines)
    told, made = page.call(EXPAND, "\n".join(lines))
    if fault and told and told[0] < fault[0]:
        fault, _ = _expanded(lines[: fault[0] - 1])
    if fault or told:
        return not (fault and told and fault[0] == told[0])
    return plain != bytes(made)


def expansions(page, _, asked):
    """What macros come to is what the lab makes of them."""
    for path in _files():
        if not _has_block(path.read_bytes()) and _differs(page, _lines(path.read_bytes())):
            yield f"{path.name}: the page expands it otherwise than the lab"
    for seed in range(asked.scripts):
        if _differs(page, script_of(seed)):
            yield f"the short script of seed {seed}: the page expands it otherwise than the lab\n" + "\n".join(script_of(seed))


#: As the page has it in answers.js.
MOST_TOLD = 4000
TELL = """async (text) => {
  await page.asking.ask('script', { text });
  return [await page.asking.ask('told'), (await page.asking.ask('draw', { line: 1 }))?.verdicts.map((one) => one.name) ?? []];
}"""


def _told(script):
    """What the lab tells of a run, and the names of its verdicts; nothing where there is none."""
    if all(map(is_silent, script.lines)):
        return [[], []]
    return [[printable(line) for line in what_happened(script, True)], [one.name for one in verdicts(read_fates(script.lines))]]


def tellings(page, *_):
    """What is told of each run that isn't too long for that, and its verdicts, are what the lab tells of it."""
    for path in _files():
        raw = path.read_bytes()
        lines, script = _lines(raw), expand(_lines(raw))
        is_told = not _has_block(raw) and len(script.lines) <= MOST_TOLD
        is_told = is_told and run_program(["run"], script_bytes(script.lines)).returncode == 0
        if is_told and page.call(TELL, "\n".join(lines)) != _told(script):
            yield f"{path.name}: the page tells something else of the run than the lab"


def refused(page, *_):
    """Scripts that are none are refused as the program refuses them."""
    text = _read("examples/refused.table").decode("utf-8", "surrogateescape")
    for row in re.split(r"^== ", text, flags=re.M)[1:]:
        raw = row.partition("\n")[2].encode("utf-8", "surrogateescape")
        native = run_program(["run"], raw)
        if (native.returncode, native.stdout) != _in_page(page, ["run"], raw):
            yield f"refused.table, {row.splitlines()[0]}: the page says something else"


HOSTILE = """set 3
elect n0
insert n0 t {_id: 1, "</script><img src=x onerror=alert(1)>": "<script>alert(1)</script>", s: "\\u0022><svg onload=alert(2)>"}
dump n0 local
# </textarea><script>alert(3)</script><h1 onclick=alert(4)>
read n0 local t "<img src=x onerror=alert(5)>"
<b>bold</b> n0"""


#: Scripts that are to do no harm: markup, strange signs, what is long or takes long, and what is refused.
HARMLESS = (
    HOSTILE, "set 3\n#" + "x" * 8_388_500, "y" * 8_388_609, "set 3\n" + "flush n0\n" * 190_000, "set 3\n" + "flush n0\n" * 10_000,
    "set 1\nelect n0\nrepeat 100000 elect n0", "set 50\n" + "\n".join(f"elect n{node}" for node in range(50)), "\x00\n\ufeff", "set 3\r\nflush n0\r",
)


def hostile(page, *_):
    """Nothing of a script becomes markup, and none keeps the page from the next one."""
    strange = "document.querySelectorAll('img, h1[onclick], svg[onload], b, script:not([src])').length"
    for text in HARMLESS:
        page.call(OPEN, text)
        time.sleep(1)
        page.run("document.getElementById('stop').click()")
        page.wait(IDLE)
        if page.run(strange):
            yield f"{text[:60]!r}: it becomes markup"
    page.call(OPEN, "set 3\nelect n0")
    page.wait(IDLE + " && page.text === 'set 3\\nelect n0'")
    if page.run("page.editor.replies.get(2)?.text") != "primary 1 noop 1/0/1":
        yield "after hostile scripts the page doesn't play a plain one"
    yield from (f"the page tells an error: {error}" for error in page.errors)
    for raw in (HARMLESS[1].encode(), HARMLESS[2].encode(), HARMLESS[3].encode()):
        native = run_program(["run"], raw)
        if page.call(SHORT_RUN, raw) != [native.returncode, len(native.stdout)]:
            yield f"{raw[:20]!r}: the page says something else than the program"


def links(page, address, _):
    """A link has the whole script, and the line."""
    page.call(OPEN, HOSTILE)
    page.wait(IDLE)
    page.call("(line) => page.editor.goTo(line)", 4)
    page.wait("location.hash.endsWith('line=4')", 20)
    where = page.run("location.href")
    page.call("(text) => { page.open(text); location.hash = ''; }", "set 1")
    page.wait(IDLE)
    page.run(f"location.href = {json.dumps(where)}")
    page.wait("page.text !== 'set 1'", 20)
    if page.run("[page.text, page.editor.line]") != [HOSTILE, 4]:
        yield "a link doesn't bring its script and its line"


def typing(page, *_):
    """A reply stands beside its line soon after that was typed, in a script of 200 lines."""
    lines = ["set 3", "elect n0"] + [f"insert n0 t {{_id: {number}}}" if number % 3 else f"update n0 t {number - 1} {{$inc: {{n: 1}}}}" for number in range(2, 200)]
    page.call(OPEN, "\n".join(lines))
    page.wait(IDLE)
    times = page.call(TYPED, [f"insert n0 u {{_id: {number}}}" for number in range(30)])
    middle = statistics.median(times)
    print(f"web: a reply stands beside its line in {middle:.0f} ms, median of {len(times)} (of {min(times):.0f} to {max(times):.0f})", file=sys.stderr)
    if middle > LONGEST:
        yield f"a reply stands beside its line in {middle:.0f} ms, and that must be {LONGEST}"


def keys(page, *_):
    """The keyboard alone suffices: to type, step, undo, write a next line and go through the picture."""
    page.call(OPEN, "set 3\nelect n0")
    page.wait(IDLE)
    page.run("page.editor.area.focus()")
    page.type("\ncrash n1")
    page.wait(IDLE + " && page.editor.replies.get(3)?.text === 'down'")
    page.press("ArrowUp", 38, modifiers=1)
    page.wait("page.editor.line === 2")
    page.press("z", 90, modifiers=2)
    page.wait("page.text === 'set 3\\nelect n0'")
    page.wait(IDLE)
    page.run("document.querySelector('#next button[data-writes=\"crash n2\"]').focus()")
    page.wait("document.getElementById('preview').textContent.includes('Secondary→Down')")
    page.press("Enter", 13, text="\r")
    page.wait(IDLE + " && page.text.endsWith('crash n2')")
    page.wait("document.getElementById('say').textContent === 'line 3: down'")
    page.run("document.getElementById('picture').focus()")
    page.press("ArrowRight", 39)
    page.wait("page.picture.node === 1")
    page.press("Escape", 27)
    page.wait("document.activeElement === page.editor.area")
    return
    yield


PLACE = """(line, node) => {
  const { picture } = page, row = picture.rowOf(line), { told } = picture;
  picture.reveal(row);
  const bounds = picture.body.svg.getBoundingClientRect();
  return [bounds.left + told.lanes[node], bounds.top + (row + 0.5) * told.row];
}"""
MIDDLE = "(writes) => { const { x, y } = document.querySelector(`#next button[data-writes=\"${writes}\"]`).getBoundingClientRect(); return [x + 5, y + 5]; }"


def pointing(page, *_):
    """Who points at a button is told what it would do, and a click in the picture shows a node and its documents there."""
    page.call(OPEN, "set 3\nelect n0\ninsert n0 t {_id: 1}\nspread n0\ndelete n0 t 1")
    page.wait(IDLE)
    page.point(page.call(MIDDLE, "crash n2"))
    page.wait("document.getElementById('preview').textContent === 'crash n2 → down; n2: Secondary→Down'")
    for line, node, said in ((4, 2, "t {_id: 1}"), (3, 1, "(none)")):
        page.point(page.call(PLACE, line, node), click=True)
        page.wait(f"page.editor.line === {line} && {IDLE}")
        told = page.run("document.getElementById('told').innerText")
        if f"Documents at n{node}, at local\n{said}" not in told:
            yield f"a click at n{node} in line {line} shows {told!r}"


KEEP_FILES = """(() => {
  globalThis.saved = [];
  URL.createObjectURL = (blob) => { saved.push(blob); return "#"; };
  HTMLAnchorElement.prototype.click = function () { saved.push(this.download); };
})()"""
SAVED = "async () => { const [blob, name] = saved.splice(0); return [name, [...new Uint8Array(await blob.arrayBuffer())]]; }"
DROP = """(raw) => {
  const dataTransfer = new DataTransfer();
  dataTransfer.items.add(new File([raw], "file"));
  document.body.dispatchEvent(new DragEvent("drop", { dataTransfer, bubbles: true, cancelable: true }));
}"""


def files(page, *_):
    """A script, its plain lines, its trace and its picture are saved, and what was saved is opened where it is dropped."""
    text = "set 3\nelect n0\n# é\ninsert n0 t {_id: 1}"
    page.call(OPEN, text)
    page.wait(IDLE)
    page.run(KEEP_FILES)
    saved = {}
    for kind in ("script", "plain", "svg", "trace"):
        page.call("(kind) => { document.getElementById('kind-of-file').value = kind; document.getElementById('save').click(); }", kind)
        page.wait("saved.length === 2")
        name, raw = page.call(SAVED)
        saved[name] = bytes(raw)
    plain = script_bytes(expand(text.split("\n")).lines)
    expected = {"run.lab": f"{text}\n".encode(), "run.replset": plain, "run.trace": run_program(["trace"], plain).stdout}
    yield from (f"{name} is saved as {saved.get(name)!r}" for name, raw in expected.items() if saved.get(name) != raw)
    if not saved["run.svg"].startswith(b"<svg "):
        yield "no picture is saved"
    page.call(OPEN, "set 1")
    page.call(DROP, saved["run.lab"])
    page.wait(f"page.text === {json.dumps(text)}", 20)


def checks(page, *_):
    """A trace that is dropped is checked, and the first line that is wrong is told."""
    trace = _read("examples/first.trace")
    wrong = trace.replace(b"found {_id: 1}", b"missing")
    for raw, said in ((trace, "yes"), (wrong, "OtherReply")):
        page.call("async (raw) => page.openFile(raw)", raw)
        page.wait("document.getElementById('judged').open")
        told = page.run("document.querySelector('#judged pre').textContent")
        page.run("document.getElementById('judged').close()")
        if said not in told or raw is wrong and "the run says" not in told:
            yield f"a trace is told to be {told!r}"
    if verdict_of(_lines(trace)).split()[0] != "yes":
        yield "first.trace is none"


def drawings(page, *_):
    """The picture that the page saves is the lab's."""
    for path in sorted((TOP / "docs" / "cookbook").glob("*.lab")):
        text = path.read_text(encoding="utf-8")
        if _has_block(text.encode()) or "# picture:" in text:
            continue
        page.call(EXPAND, text.rstrip("\n"))
        made = bytes(page.call("async (title) => [...await page.asking.ask('svg', { title })]", path.stem.replace("_", " ")))
        if made != _read(f"docs/pictures/{path.stem}.svg"):
            yield f"{path.name}: the page draws another picture than the lab"


def shots(page, _, asked):
    """Pictures of the page."""
    if not asked.shots:
        return
    asked.shots.mkdir(parents=True, exist_ok=True)
    many = "set 20\nelect n0\ninsert n0 orders {_id: 1}\nspread n0\ncrash n0\nelect n3"
    for name, text in (("three", (TOP / "docs/cookbook/w1_write_lost.lab").read_text().rstrip("\n")), ("twenty", many)):
        page.call(OPEN, text)
        page.wait(IDLE)
        for width, height in ((420, 900), (1400, 900), (2560, 1300)):
            for dark in (False, True):
                page.call("(line) => page.editor.goTo(line)", 5)
                page.shot(asked.shots / f"{name}-{width}-{'dark' if dark else 'light'}.png", width, height, dark)
    return
    yield


def unfit(page, address, _):
    """A browser that can't run the program is told so in a sentence, with those that can. It is the last part."""
    says = "document.getElementById('start')?.textContent.includes('Firefox from 134')"
    page.go("about:blank", "true")
    page.go(address, says, before="WebAssembly.validate = () => false")
    if page.run("document.getElementById('start').hidden || !document.getElementById('main').hidden"):
        yield "a browser that can't run the program is shown the page"


PARTS = (replies_and_traces, refused, expansions, tellings, drawings, checks, links, keys, pointing, files, typing, hostile, shots, unfit)


def _wrong_of(part, page, address, asked):
    """What a part finds wrong; where it can't go on, that too."""
    found = []
    try:
        found.extend(part(page, address, asked))
    except Failed as fault:
        found.append(f"{part.__name__}: {fault}")
    return found


def wrong_in(page, address, asked):
    """What is wrong, a sentence each."""
    find_program()
    wrong = []
    for part in PARTS:
        if asked.only in (None, part.__name__):
            page.wait(IDLE)
            began = time.monotonic()
            wrong += _wrong_of(part, page, address, asked)
            print(f"web: {part.__name__}, {time.monotonic() - began:.0f} s", file=sys.stderr)
    return wrong
