// Python's regular expressions: their letters mean what they mean there, and places are counted in code points.
import { TypeError } from "./faults.js";
import { pointsAt, unitsAt } from "./points.js";

const MULTILINE = 8, DOTALL = 16;

const CLASSES = {
  d: "\\p{Nd}",
  w: "\\p{L}\\p{N}_",
  s: "\\t-\\r\\x1c-\\x20\\x85\\xa0\\u1680\\u2000-\\u200a\\u2028\\u2029\\u202f\\u205f\\u3000",
};
const SYNTAX = "^$\\.*+?()[]{}|/";
const CONTROLS = "nrtfv0";

/** A letter after a backslash, within brackets or not. */
function escapedAs(sign, inside) {
  if (sign in CLASSES) return inside ? CLASSES[sign] : `[${CLASSES[sign]}]`;
  if (sign.toLowerCase() in CLASSES) return `[^${CLASSES[sign.toLowerCase()]}]`;
  if (sign === "b") return inside ? "\\b" : "(?:(?<=[\\p{L}\\p{N}_])(?![\\p{L}\\p{N}_])|(?<![\\p{L}\\p{N}_])(?=[\\p{L}\\p{N}_]))";
  if (CONTROLS.includes(sign) || /[0-9xu]/.test(sign)) return "\\" + sign;
  return SYNTAX.includes(sign) || (inside && sign === "-") ? "\\" + sign : sign;
}

function signAs(sign, flags) {
  if (sign === ".") return flags & DOTALL ? "[^]" : "[^\\n]";
  if (sign === "^") return flags & MULTILINE ? "(?<=\\n|(?<![^]))" : "(?<![^])";
  if (sign === "$") return flags & MULTILINE ? "(?=\\n|(?![^]))" : "(?=\\n?(?![^]))";
  return sign === "{" || sign === "}" || sign === "]" ? "\\" + sign : sign;
}

const REPEATS = /\{\d*,?\d*\}/y;

/** A pattern of Python's as one of JavaScript's. */
function asNative(pattern, flags) {
  let made = "", inside = false, place = 0;
  while (place < pattern.length) {
    const sign = pattern[place];
    REPEATS.lastIndex = place;
    const repeats = !inside && REPEATS.exec(pattern);
    if (sign === "\\") {
      made += escapedAs(pattern[place + 1], inside);
      place += 1;
    } else if (repeats) {
      made += repeats[0];
      place += repeats[0].length - 1;
    } else if (inside) {
      made += sign === "[" ? "\\[" : sign === "]" && !/\[\^?$/.test(made) ? "]" : sign === "]" ? "\\]" : sign;
      inside = sign !== "]" || /\\\]$/.test(made);
    } else {
      inside = sign === "[";
      made += inside ? sign : signAs(sign, flags);
    }
    place += 1;
  }
  return made;
}

class Match {
  constructor(text, found) {
    this.text = text;
    this.found = found;
  }
  group(number = 0) { return this.found[number] ?? null; }
  groups() { return this.found.slice(1).map((part) => part ?? null); }
  start() { return pointsAt(this.text, this.found.index); }
  end() { return pointsAt(this.text, this.found.index + this.found[0].length); }
}

class Pattern {
  constructor(pattern, flags) {
    const inner = /^\(\?s\)/.test(pattern) ? pattern.slice(4) : pattern;
    const native = asNative(inner, inner === pattern ? flags : flags | DOTALL);
    this.here = new RegExp(native, "uy");
    this.whole = new RegExp(`(?:${native})(?![^])`, "uy");
    this.any = new RegExp(native, "gu");
  }
  match(text, place = 0) { return this._found(this.here, text, place); }
  fullmatch(text) { return this._found(this.whole, text, 0); }
  search(text, place = 0) { return this._found(this.any, text, place); }
  _found(native, text, place) {
    if (typeof text !== "string") throw new TypeError("a pattern is for texts");
    native.lastIndex = unitsAt(text, place);
    const found = native.exec(text);
    return found && new Match(text, found);
  }
  finditer(text) { return [...text.matchAll(this.any)].map((found) => new Match(text, found)); }
  /** Of each match its groups, or all of it where the pattern has none; one group stands for itself. */
  findall(text) {
    const partsOf = ({ found }) => (found.length > 1 ? found.slice(1) : [found[0]]).map((part) => part ?? "");
    return this.finditer(text).map(partsOf).map((parts) => (parts.length > 1 ? parts : parts[0]));
  }
  sub(other, text) {
    const filled = (found) => other.replace(/\\(\d)/g, (_, number) => found.group(Number(number)) ?? "");
    const made = typeof other === "function" ? other : filled;
    return text.replace(this.any, (...given) => {
      const place = given.findIndex((one, at) => at > 0 && typeof one === "number");
      return made(new Match(text, Object.assign(given.slice(0, place), { index: given[place] })));
    });
  }
  split(text, most = 0) {
    const parts = [];
    let from = 0;
    for (const found of text.matchAll(this.any)) {
      if (most && parts.length >= most) break;
      parts.push(text.slice(from, found.index));
      from = found.index + found[0].length;
    }
    return [...parts, text.slice(from)];
  }
}

const known = new Map();

function compile(pattern, flags = 0) {
  if (pattern instanceof Pattern) return pattern;
  const name = `${flags} ${pattern}`;
  if (!known.has(name)) known.set(name, new Pattern(pattern, flags));
  return known.get(name);
}

export const re = {
  MULTILINE,
  M: MULTILINE,
  DOTALL,
  compile,
  match: (pattern, text, flags = 0) => compile(pattern, flags).match(text),
  fullmatch: (pattern, text, flags = 0) => compile(pattern, flags).fullmatch(text),
  search: (pattern, text, flags = 0) => compile(pattern, flags).search(text),
  finditer: (pattern, text) => compile(pattern).finditer(text),
  sub: (pattern, other, text, { flags = 0 } = {}) => compile(pattern, flags).sub(other, text),
  split: (pattern, text, { flags = 0, maxsplit = 0 } = {}) => compile(pattern, flags).split(text, maxsplit),
};
