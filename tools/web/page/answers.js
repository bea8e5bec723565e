// What the page asks of a script: each answer is plain data, which goes from the worker to the page.
import { choices } from "./lab/choices.js";
import { cut_short } from "./lab/documents.js";
import { HATCH, HEAD, ROW, Drawing, svg_file } from "./lab/drawing.js";
import { Element } from "./lab/elements.js";
import { read_fates } from "./lab/fates.js";
import { picture_of, window as windowOf } from "./lab/layout.js";
import { observe } from "./lab/observe.js";
import { flags, rests } from "./lab/page.js";
import { Player } from "./lab/player.js";
import { run_program } from "./given.js";
import { play, script_bytes } from "./lab/program.js";
import { is_silent, set_size, split_lines } from "./lab/script.js";
import { printable } from "./lab/show.js";
import { changes, read_state } from "./lab/state.js";
import { what_happened } from "./lab/telling.js";
import { judged } from "./lab/traces.js";
import { verdicts } from "./lab/verdicts.js";
import { explain_words } from "./lab/words_explain.js";
import { MOST_ROWS } from "./lab/words_picture.js";
import { Expanded, Expander } from "./lab/expand.js";
import { Dict } from "./python/holders.js";
import { decoded } from "./python/texts.js";

/** What a macro that asks was told stands after this. */
const TOLD = "#: ";

/** Of longer scripts what happened to the data is told only where it is asked for. */
const MOST_TOLD = 4000;

/** An element of the drawing as plain data: its name, its attributes and what stands in it. */
function plain(part) {
  return typeof part === "string" ? part : [part.name, part.attributes.items(), part.inside.map(plain)];
}

/** Elements as texts, so that the page makes only those anew that it doesn't have. */
const spelled = (parts) => parts.map((part) => JSON.stringify(plain(part)));

/** What stands beside a plain line: its reply, or what a macro that asks was told. */
function besideLine(text, reply) {
  if (reply) return { text: printable(reply.text), bad: reply.unheard, more: reply.more.length };
  return text.startsWith(TOLD) ? { text: printable(text.slice(TOLD.length)), bad: false, more: 0 } : null;
}

/** What stands beside each line of the script: of several replies the last one, with how many there were. */
export function replies(session) {
  const found = new Map(), { fault, played, source, transcript } = session;
  for (const [place, text] of played.entries()) {
    const line = source[place], reply = transcript.by_line.get(place + 1), told = besideLine(text, reply);
    if (told) found.set(line, { line, ...told, count: (found.get(line)?.count ?? 0) + (reply ? 1 : 0) });
  }
  return { replies: [...found.values()], fault: fault && { line: fault.line, told: fault.told }, surprises: session.surprises() };
}

/** All that a line of the script came to: the plain lines with their replies. */
export function lineAt(session, number) {
  const told = [];
  for (const [place, line] of session.played.entries()) {
    if (session.source[place] !== number) continue;
    const reply = session.transcript.by_line.get(place + 1);
    const more = reply ? cut_short(reply.more).map((one) => printable(one)) : [];
    told.push({ text: printable(line), reply: reply ? printable(reply.text) : "", bad: reply?.unheard ?? false, more });
  }
  return told;
}

function size(session) {
  return session.played.some((line) => !is_silent(line)) ? set_size(session.played).nodes : 0;
}

/** So many lines from the front; a block is never cut. */
function whole(lines, count) {
  const word = (place) => lines[place].replace(/\r$/, "");
  const bounds = [...lines.keys()];
  const open = bounds.findLast((place) => place < count && (word(place) === "par" || word(place) === "end"));
  if (open === undefined || word(open) === "end") return lines.slice(0, count);
  const ends = bounds.find((place) => place >= count && word(place) === "end");
  return lines.slice(0, ends === undefined ? open : ends + 1);
}

/** The plain lines up to a line of the script. */
function plainUpTo(session, number) {
  const next = session.source.findIndex((line) => line > number);
  return whole(session.played, next < 0 ? session.played.length : Math.min(next, session.played.length));
}

/** The first and the last plain line of a picture that has a line of the script in it. */
function drawnRound(session, number) {
  const count = session.played.length, at = Math.max(0, session.source.findIndex((line) => line >= number));
  const begins = Math.max(1, Math.min(count - MOST_ROWS + 1, at - MOST_ROWS / 2));
  return windowOf(session.played, [begins, count], MOST_ROWS);
}

/** The run's picture round a line of the script, and of each row which line it is. */
export function draw(session, number) {
  const nodes = size(session);
  if (!nodes) return null;
  const [first, last] = drawnRound(session, number);
  const picture = picture_of(observe(session.played, first, last), first, last), drawing = new Drawing(picture, true);
  const found = session.played.length <= MOST_TOLD ? verdicts(read_fates(session.played)) : [];
  return {
    nodes, row: ROW, head: HEAD,
    gutter: drawing.gutter, width: drawing.width, height: drawing.height, spread: drawing.spread,
    rows: picture.rows.map((row) => rowOf(session, row)),
    lanes: Array.from({ length: nodes }, (_, node) => drawing.lane(node)),
    heading: spelled(drawing.heading()),
    body: spelled([new Element("defs", new Dict(), [HATCH]), ...drawing.body(), ...flags(drawing, found), ...rests(drawing)]),
    verdicts: found.map((one) => verdictOf(session, one)),
  };
}

function verdictOf(session, { name, told, lines }) {
  return { name, told, lines: lines.map((line) => session.source[line - 1] ?? 0) };
}

function rowOf(session, row) {
  const change = row.step?.told_change() ?? "";
  return { line: session.source[row.line - 1], plain: row.line, states: row.states.map(stateOf), change };
}

const stateOf = (state) => [state.role, state.term, state.vote, state.last, state.durable, state.applied, state.commit, state.config, state.rollback];

/** The state of a node after a plain line, and its documents there. */
export function nodeAt(session, node, plainLine) {
  const lines = whole(session.played, plainLine);
  const asked = play([...lines, `state n${node}`, `dump n${node} local`, `dump n${node} majority`]);
  const [state, local, majority] = [1, 2, 3].map((place) => asked.by_line.get(lines.length + place));
  const documents = (reply) => (reply.refused ? null : cut_short(reply.more).map((one) => printable(one)));
  return { state: stateOf(read_state(state.text)), local: documents(local), majority: documents(majority) };
}

/** What may be done after a line of the script. */
export function next(session, number) {
  return size(session) ? choices(plainUpTo(session, number)).map(({ about, line, told }) => ({ about, line, told })) : [];
}

/** What a line would do after a line of the script: its reply, and what changes at each node. */
export function tryLine(session, number, line) {
  if (is_silent(line)) return ["nothing happens"];
  const player = new Player(plainUpTo(session, number));
  const before = player.states(), expander = new Expander(player), count = player.lines.length;
  expander.macros.restore(keptAt(session, number));
  try {
    expander.take(line);
  } catch (fault) {
    return [fault.sentence ?? String(fault)];
  }
  const replies = player.transcript().replies.filter((reply) => reply.line > count).map((reply) => printable(reply.text));
  const after = player.states();
  const changed = [...before].map((node) => changes(node, before.get(node), after.get(node))).filter((told) => told);
  const last = replies[replies.length - 1] ?? "no reply";
  return [replies.length > 1 ? `${replies.length} replies, the last: ${last}` : last, ...changed];
}

/** What macros had left for the line after this one. */
function keptAt(session, number) {
  return session.marks[number]?.[1] ?? session.expander.macros.kept();
}

/** What happened to the data of the whole run. */
export function told(session) {
  if (!size(session) || session.played.length > MOST_TOLD) return [];
  return what_happened(new Expanded([...session.played], [...session.source]), true).map((line) => printable(line));
}

export const plainScript = (session) => script_bytes(session.played);

export function trace(session) {
  return run_program(["trace"], script_bytes(session.played)).stdout;
}

/** The picture alone, as `lab picture` makes it. */
export function svg(session, title) {
  const [first, last] = windowOf(session.played, null, MOST_ROWS);
  return new TextEncoder().encode(svg_file(picture_of(observe(session.played, first, last), first, last), title));
}

export const check = (raw) => judged(split_lines(decoded(raw, "utf-8", "surrogateescape"))).map((line) => printable(line));
export const explain = (said) => explain_words(said);
