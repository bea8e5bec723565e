// The script on the left, its lines' numbers, and on the right each reply beside its line.
import { put } from "./elements.js";

/** Rows beyond the window that are kept ready. */
const BEYOND = 20;

export class Editor {
  constructor(changed, moved) {
    Object.assign(this, { changed, moved, replies: new Map(), fault: null, surprises: new Map() });
    this.area = document.getElementById("text");
    this.numbers = document.getElementById("numbers");
    this.shown = document.getElementById("replies");
    this.line = 1;
    this.area.addEventListener("input", () => {
      this.line = this.lineNow();
      this.changed(this.area.value);
      this.render();
    });
    for (const kind of ["keyup", "click", "focus"]) this.area.addEventListener(kind, () => this.follow());
    this.area.addEventListener("scroll", () => this.render());
    this.shown.addEventListener("wheel", (event) => this.area.scrollBy(0, event.deltaY), { passive: true });
    this.shown.addEventListener("click", (event) => {
      const line = Number(event.target.closest("[data-line]")?.dataset.line);
      if (line) this.goTo(line, false);
    });
    new ResizeObserver(() => this.render()).observe(this.area);
  }

  get lines() { return this.area.value.split("\n"); }
  get height() { return parseFloat(getComputedStyle(this.area).lineHeight); }

  /** Takes another text, with the cursor at the end of a line. */
  setText(text, line) {
    this.area.value = text;
    this.goTo(line ?? this.lines.length, false);
  }

  lineNow() {
    return this.area.value.slice(0, this.area.selectionStart).split("\n").length;
  }

  follow() {
    const line = this.lineNow();
    if (line !== this.line) {
      this.line = line;
      this.moved(line);
    }
    this.render();
  }

  /** Puts the cursor at the end of a line, and shows it. */
  goTo(line, focus, tells = true) {
    const lines = this.lines, wanted = Math.max(1, Math.min(line, lines.length));
    const end = lines.slice(0, wanted).join("\n").length;
    this.area.setSelectionRange(end, end);
    const top = (wanted - 1) * this.height, room = this.area.clientHeight - 3 * this.height;
    if (top < this.area.scrollTop) this.area.scrollTop = top;
    else if (top > this.area.scrollTop + room) this.area.scrollTop = top - room;
    if (focus) this.area.focus();
    this.line = wanted;
    if (tells) this.moved(wanted);
    this.render();
  }

  /** Writes a line after the one with the cursor. */
  write(line) {
    const lines = this.lines, at = lines[this.line - 1] === "" ? this.line - 1 : this.line;
    lines.splice(at, at < this.line ? 1 : 0, line);
    this.area.value = lines.join("\n");
    this.line = at + 1;
    this.changed(this.area.value);
    this.goTo(at + 1, false);
  }

  show({ replies, fault, surprises }) {
    this.replies = new Map(replies.map((reply) => [reply.line, reply]));
    this.fault = fault;
    this.surprises = new Map(surprises);
    const box = document.getElementById("fault");
    box.hidden = fault === null;
    box.firstElementChild.textContent = fault ? fault.told.join("\n") : "";
    this.render();
  }

  /** Draws the lines that are in the window. */
  render() {
    const height = this.height || 20, top = this.area.scrollTop, count = this.lines.length;
    const first = Math.max(0, Math.floor(top / height) - BEYOND);
    const last = Math.min(count, Math.ceil((top + this.area.clientHeight) / height) + BEYOND);
    this.numbers.replaceChildren();
    this.shown.replaceChildren();
    this.numbers.style.setProperty("--digits", String(String(count).length));
    for (let line = first + 1; line <= last; line += 1) this.row(line, (line - 1) * height - top);
  }

  row(line, top) {
    const now = line === this.line ? " now" : "", bad = this.fault?.line === line ? " fault" : "";
    const number = put(this.numbers, "div", String(line), `number${now}${bad}`);
    const reply = this.replies.get(line), kind = bad || (reply?.bad ? " bad" : "");
    const shown = put(this.shown, "div", this.said(line, reply), `reply${now}${kind}`);
    shown.setAttribute("role", "listitem");
    shown.dataset.line = String(line);
    shown.title = this.surprises.get(line) ?? shown.textContent;
    for (const part of [number, shown]) part.style.transform = `translateY(${top}px)`;
  }

  said(line, reply) {
    if (this.fault?.line === line) return `✗ ${this.fault.told[0].replace(/^line [\d ()]+: /, "")}`;
    if (!reply) return "";
    const more = reply.more ? ` (+${reply.more})` : "", many = reply.count > 1 ? `${reply.count} replies · ` : "";
    return `${this.surprises.has(line) ? "⚠ " : ""}${many}${reply.text}${more}`;
  }
}
