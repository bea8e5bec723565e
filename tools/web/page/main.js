// The page: a script on the left, its replies on the right, the run's picture below.
import { Asking, Stopped } from "./asking.js";
import { Editor } from "./editor.js";
import { save, takeFiles } from "./files.js";
import { Library } from "./library.js";
import { fragmentOf, readFragment } from "./link.js";
import { Next } from "./next.js";
import { Panel } from "./panel.js";
import { Picture } from "./picture.js";
import { UNFIT, isFit } from "./program.js";

/** A longer script is for the program by itself: no browser edits it fluently. */
const MOST_SIGNS = 1_000_000, MOST_LINES = 20_000;
const TOO_LONG = "This script has more than 20,000 lines or a million characters: './replset run' plays it.";
/** A change waits so long for what was asked before it; then the worker is ended. */
const PATIENCE = 2000;
/** For so long nothing is typed before the run is drawn anew. */
const TYPING = 250;
/** For so long nothing is typed before a screen reader is told the reply, and the link is made anew. */
const PAUSE = 500;
const SHOWN = 8000;

const find = (name) => document.getElementById(name);

const isTooLong = (text) => text.length > MOST_SIGNS || text.split("\n", MOST_LINES + 1).length > MOST_LINES;

class Page {
  /** `quick` is asked for replies alone, so that these never wait for a picture; `asking` for all else. */
  constructor(quick, asking, scripts) {
    Object.assign(this, { quick, asking });
    this.history = { past: [], future: [] };
    this.latest = { drawing: null, told: [] };
    this.editor = new Editor((text) => this.change(text), (line) => this.move(line));
    this.picture = new Picture((row, node, tells) => this.choose(row, node, tells), () => this.editor.area.focus());
    this.panel = new Panel((node) => this.picture.pick(node), (line) => line && this.editor.goTo(line, false));
    this.next = new Next((line) => this.editor.write(line), (line) => this.tries(line));
    this.library = new Library(scripts, ({ text }) => this.open(text.trimEnd()));
    this.text = "";
    this.listen();
  }

  listen() {
    const does = {
      undo: () => this.turn("past", "future"), redo: () => this.turn("future", "past"),
      back: () => this.step(-1), forth: () => this.step(1),
    };
    for (const [name, act] of Object.entries(does)) find(name).addEventListener("click", act);
    find("stop").addEventListener("click", () => [this.quick, this.asking].forEach((one) => one.stop()));
    find("link").addEventListener("click", () => this.copyLink());
    find("save").addEventListener("click", () => this.save(find("kind-of-file").value));
    find("help").addEventListener("click", () => this.help());
    find("explain").addEventListener("submit", (event) => this.explain(event));
    addEventListener("hashchange", () => this.openLink());
    document.addEventListener("keydown", (event) => this.key(event));
    this.editor.area.addEventListener("beforeinput", (event) => {
      const turns = { historyUndo: "undo", historyRedo: "redo" };
      if (!(event.inputType in turns)) return;
      event.preventDefault();
      find(turns[event.inputType]).click();
    });
    this.editor.area.addEventListener("paste", (event) => {
      if (!isTooLong(this.text + event.clipboardData.getData("text"))) return;
      event.preventDefault();
      this.say(TOO_LONG, true);
    });
    takeFiles((raw) => this.openFile(raw));
  }

  key(event) {
    const inText = event.target === this.editor.area, name = event.key.toLowerCase();
    if (event.altKey && (event.key === "ArrowDown" || event.key === "ArrowUp")) this.step(event.key === "ArrowDown" ? 1 : -1);
    else if (inText && (event.ctrlKey || event.metaKey) && (name === "z" || name === "y"))
      find(name === "y" || event.shiftKey ? "redo" : "undo").click();
    else return;
    event.preventDefault();
  }

  // What the script is, and what it was.

  open(given, line) {
    const text = given.replace(/\r\n?/g, "\n");
    if (isTooLong(text)) return this.say(TOO_LONG, true);
    this.keep();
    this.text = text;
    this.editor.setText(text, line);
    this.editor.show({ replies: [], fault: null, surprises: [] });
    return this.refresh();
  }

  change(text) {
    if (text === this.text) return;
    this.typed = true;
    this.keep();
    this.text = text;
    this.refresh();
  }

  /** Keeps the script as it was, for undoing; what is typed in one line at once counts as one change. */
  keep() {
    const { past } = this.history, last = past[past.length - 1], now = performance.now();
    const same = last && last.line === this.editor.line && now - last.when < 1000 && last.count === this.text.split("\n").length;
    if (same) last.when = now;
    else past.push({ text: this.text, line: this.editor.line, count: this.text.split("\n").length, when: now });
    this.history.future = [];
  }

  turn(from, to) {
    const taken = this.history[from].pop();
    if (!taken) return;
    this.history[to].push({ text: this.text, line: this.editor.line, count: 0, when: 0 });
    this.text = taken.text;
    this.editor.setText(taken.text, taken.line);
    this.refresh();
  }

  step(by) {
    this.editor.goTo(this.editor.line + by, false);
  }

  // What the worker tells of it.

  /** Whether nothing is under way. */
  get idle() {
    return ![this.playing, this.drawing, this.drawSoon, this.quick.waiting.size, this.asking.waiting.size].some(Boolean);
  }

  /** Has the script played; where it changes meanwhile, once more. */
  async refresh() {
    this.stale = true;
    this.hurry(this.quick, "playing");
    if (this.playing) return;
    this.playing = true;
    let played = false;
    while (this.stale) {
      this.stale = false;
      played = await this.quietly(this.play());
    }
    this.playing = false;
    clearTimeout(this.drawSoon);
    this.drawSoon = played && setTimeout(() => this.redraw(), this.typed ? TYPING : 0);
    this.typed = false;
  }

  /** Where a worker still is at what a change has made old, it is ended after a while. */
  hurry(asking, doing) {
    const { text } = this;
    setTimeout(() => this[doing] && this.text === text && asking.text !== text && asking.stop(), PATIENCE);
  }

  async play() {
    const { text } = this;
    this.quick.text = text;
    this.editor.show(await this.quick.ask("script", { text }));
    this.later();
    return true;
  }

  /** Draws the run, and tells what may be done next and what happened. */
  async redraw() {
    this.drawSoon = null;
    this.hurry(this.asking, "drawing");
    this.again = true;
    if (this.drawing) return;
    this.drawing = true;
    while (this.again) {
      this.again = false;
      await this.quietly(this.draw(this.text));
    }
    this.drawing = false;
    if (this.drawnLine !== this.editor.line) this.move(this.editor.line);
  }

  async draw(text) {
    const { line } = this.editor;
    this.drawnLine = line;
    this.asking.text = text;
    await this.asking.ask("script", { text });
    if (text === this.text) this.next.show(await this.asking.ask("next", { line }));
    const drawing = text === this.text && (await this.asking.ask("draw", { line }));
    if (text !== this.text) return;
    this.latest = { drawing, told: [] };
    this.picture.show(drawing, line);
    this.latest.told = await this.asking.ask("told");
    await this.tell(this.editor.line);
  }

  /** After a pause: the link, and what a screen reader is told. */
  later() {
    clearTimeout(this.pause);
    this.pause = setTimeout(async () => {
      history.replaceState(null, "", await fragmentOf(this.text, this.editor.line));
      const { fault, replies } = this.editor, reply = replies.get(this.editor.line);
      if (fault) this.say(`line ${fault.line}: ${fault.told.slice(0, 4).join(" ")}`);
      else if (reply) this.say(`line ${this.editor.line}: ${reply.text}`);
    }, PAUSE);
  }

  async move(line) {
    if (!this.picture || this.playing || this.drawing || this.drawSoon) return;
    this.picture.follow(line);
    await this.offer(line);
    this.later();
  }

  /** The buttons for what may be done after a line. */
  async offer(line) {
    const choices = await this.quietly(this.asking.ask("next", { line }));
    if (choices && this.editor.line === line) this.next.show(choices);
  }

  /** What a line would do after the one with the cursor. */
  tries(text) {
    return this.quietly(this.asking.ask("try", { line: this.editor.line, text }));
  }

  choose(row, node, tells) {
    this.row = row;
    if (row && tells && row.line !== this.editor.line) {
      this.editor.goTo(row.line, false, false);
      this.offer(row.line);
    }
    if (row && tells) this.say(`line ${row.line}, n${node}: ${(row.states[node] ?? []).slice(0, 2).join(" in term ")}`);
    this.tell(this.editor.line);
  }

  /** Tells all of the row and the node that are chosen. */
  async tell(line) {
    const row = this.row, { node } = this.picture;
    const lines = await this.quietly(this.asking.ask("line", { line }));
    const at = row && (await this.quietly(this.asking.ask("node", { node, plain: row.plain })));
    const verdicts = this.latest.drawing?.verdicts ?? [];
    if (lines && row === this.row && line === this.editor.line)
      this.panel.show({ line, lines, row, node, at, verdicts, told: this.latest.told });
  }

  /** What is told, or nothing where that goes wrong. */
  async quietly(asked) {
    try {
      return await asked;
    } catch (fault) {
      const stopped = fault instanceof Stopped, said = stopped ? "Stopped: what the script comes to isn't known." : fault.message;
      if (!stopped || this.quick.text === this.text) this.say(said, true);
      return null;
    }
  }

  /** Tells a screen reader something; everyone where it is to be shown. */
  say(text, shown = false) {
    clearTimeout(this.saying);
    find("say").textContent = text;
    find("say").classList.toggle("unseen", !shown);
    this.saying = setTimeout(() => find("say").classList.add("unseen"), SHOWN);
  }

  // Links, files and help.

  async openLink() {
    const found = await this.quietly(readFragment(location.hash));
    if (found && found.text !== this.text) this.open(found.text, found.line);
    return found;
  }

  async copyLink() {
    history.replaceState(null, "", await fragmentOf(this.text, this.editor.line));
    const copied = await navigator.clipboard?.writeText(location.href).then(() => true, () => false);
    this.say(copied ? "The link is copied: it has the whole script." : "The link stands in the address bar.", true);
  }

  openFile(raw) {
    const text = new TextDecoder().decode(raw);
    if (text.startsWith("trace ")) this.check(raw);
    else this.open(text.replace(/\n$/, ""));
  }

  async check(raw) {
    const told = await this.quietly(this.asking.ask("check", { raw }));
    if (!told) return;
    find("judged").querySelector("pre").textContent = told.join("\n");
    find("judged").showModal();
  }

  async save(kind) {
    if (kind === "script") return save(`${this.text}\n`, "run.lab", "text/plain");
    const types = { plain: ["run.replset", "text/plain"], svg: ["run.svg", "image/svg+xml"], trace: ["run.trace", "text/plain"] };
    const content = await this.quietly(this.asking.ask(kind, { title: "run" }));
    if (content) save(content, ...types[kind]);
  }

  help() {
    const keys = find("keys");
    keys.hidden = !keys.hidden;
    find("help").setAttribute("aria-expanded", String(!keys.hidden));
    if (!keys.hidden) find("word").focus();
  }

  async explain(event) {
    event.preventDefault();
    const told = await this.quietly(this.asking.ask("explain", { said: find("word").value }));
    find("explained").hidden = !told;
    find("explained").textContent = told?.join("\n") ?? "";
  }
}

const read = async (path, how) => {
  const answer = await fetch(new URL(path, import.meta.url));
  if (!answer.ok) throw new Error(`${path} can't be read: ${answer.status}`);
  return answer[how]();
};

/** Which program the page has, in a sentence. */
function kindOf({ proved, sources }) {
  const what = proved ? "the proved program" : "a program built without proofs";
  return `Plays ${what} (sources ${sources}), compiled for browsers, a target that isn't what the gate proves.`;
}

async function begin() {
  if (!isFit()) throw new Error(UNFIT);
  const paths = ["docs/REFERENCE.md", "docs/GLOSSARY.md"];
  const [code, scripts, built, ...pages] = await Promise.all([
    read("replset.wasm", "arrayBuffer"), read("scripts.json", "json"), read("built.json", "json"),
    ...paths.map((path) => read(path, "text")),
  ]);
  const module = await WebAssembly.compile(code).catch(() => Promise.reject(new Error(UNFIT)));
  const busy = (late) => void (find("busy").hidden = !late);
  const texts = paths.map((path, place) => [path, pages[place]]);
  const page = new Page(new Asking(module, texts, busy), new Asking(module, texts, busy), scripts);
  find("kind").textContent = kindOf(built);
  find("start").hidden = true;
  find("main").hidden = false;
  if (!(await page.openLink())) page.open(scripts[0].text.trimEnd());
  document.documentElement.dataset.ready = "yes";
  return page;
}

begin().then(
  (page) => Object.assign(globalThis, { page }),
  (fault) => void (find("start").textContent = fault.message),
);
