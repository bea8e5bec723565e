// The picture of the run, as the lab draws it, and the row and the node that are chosen in it.
import { Sheet, change, drawn, put } from "./elements.js";

export class Picture {
  /** `chosen` is told the row and the node. */
  constructor(chosen, leave) {
    Object.assign(this, { chosen, leave, told: null, place: null, node: 0 });
    this.box = document.getElementById("picture");
    this.heading = new Sheet(put(this.box, "div", undefined, "head"));
    const sheets = put(this.box, "div", undefined, "sheets");
    this.body = new Sheet(sheets);
    this.over = new Sheet(sheets);
    this.lane = this.stripe("lane");
    this.mark = this.stripe("mark");
    this.box.addEventListener("click", (event) => this.point(event));
    this.box.addEventListener("keydown", (event) => this.key(event));
    new ResizeObserver(() => this.layOut()).observe(this.box);
  }

  show(told, line) {
    this.told = told;
    this.box.classList.toggle("empty", told === null);
    if (told === null) return;
    this.node = Math.min(this.node, told.nodes - 1);
    this.heading.show(told.heading);
    this.body.show(told.body);
    for (const stripe of [this.lane, this.mark]) stripe.setAttribute("height", String(told.row));
    this.lane.setAttribute("width", String(told.spread));
    this.mark.setAttribute("width", String(told.width));
    this.layOut();
    this.follow(line);
  }

  /** A stripe over a row, which the pointer goes through. */
  stripe(name) {
    const made = drawn(["rect", [["class", name]], []]);
    this.over.svg.append(made);
    return made;
  }

  /** Where the whole drawing has no room, the script's text at its left isn't shown: that stands above already. */
  layOut() {
    if (!this.told) return;
    const { gutter, width, head, height } = this.told;
    this.left = this.box.clientWidth < width ? gutter - 8 : 0;
    this.heading.size(this.left, width, head);
    for (const sheet of [this.body, this.over]) sheet.size(this.left, width, height);
    for (const caption of this.body.svg.querySelectorAll(".caption")) change(caption, "x", this.left + 8);
    if (this.place !== null) this.reveal(this.place);
  }

  rowOf(line) {
    const rows = this.told?.rows ?? [];
    const place = rows.findLastIndex((row) => row.line !== undefined && row.line <= line && row.states.length);
    return place < 0 ? null : place;
  }

  /** Marks the last row of a line. */
  follow(line) {
    if (this.told) this.choose(this.rowOf(line), this.node, false);
  }

  choose(place, node, tells = true) {
    this.place = place;
    this.node = Math.max(0, Math.min(this.told.nodes - 1, node));
    for (const part of [this.mark, this.lane]) part.setAttribute("y", String((place ?? -2) * this.told.row));
    this.lane.setAttribute("x", String(this.told.lanes[this.node] - this.told.spread / 2));
    if (place !== null) this.reveal(place);
    this.chosen(place === null ? null : this.told.rows[place], this.node, tells);
  }

  /** Chooses a node in the row that is chosen. */
  pick(node) {
    if (this.told) this.choose(this.place, node);
  }

  reveal(place) {
    const top = place * this.told.row + this.told.head, room = this.box.clientHeight;
    if (top < this.box.scrollTop + this.told.head + 20) this.box.scrollTop = top - this.told.head - 20;
    if (top > this.box.scrollTop + room - 50) this.box.scrollTop = top - room + 50;
  }

  point(event) {
    if (!this.told || !this.body.svg.contains(event.target)) return;
    const bounds = this.body.svg.getBoundingClientRect();
    const place = Math.floor((event.clientY - bounds.top) / this.told.row), x = event.clientX - bounds.left;
    if (place < 0 || place >= this.told.rows.length || !this.told.rows[place].states.length) return;
    const near = this.told.lanes.map((lane) => Math.abs(lane - x));
    const node = x < this.told.gutter ? this.node : near.indexOf(Math.min(...near));
    this.choose(place, node);
  }

  key(event) {
    if (!this.told || event.ctrlKey || event.metaKey || event.altKey) return;
    const all = this.told.rows.length;
    const steps = { ArrowDown: 1, ArrowUp: -1, PageDown: 20, PageUp: -20, Home: -all, End: all };
    const lanes = { ArrowLeft: -1, ArrowRight: 1 };
    if (event.key in steps) this.step(steps[event.key]);
    else if (event.key in lanes) this.choose(this.place, this.node + lanes[event.key]);
    else if (event.key === "Escape") this.leave();
    else return;
    event.preventDefault();
  }

  step(by) {
    const places = this.told.rows.flatMap((row, place) => (row.states.length ? [place] : []));
    const at = places.indexOf(this.place);
    const next = at < 0 ? places.length - 1 : at + by;
    if (places.length) this.choose(places[Math.max(0, Math.min(places.length - 1, next))], this.node);
  }
}
