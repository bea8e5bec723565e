// Python's json: whole numbers stay whole, objects are dictionaries, and a fault says where it is, as Python's does.
import { ValueError } from "./faults.js";
import { Dict } from "./holders.js";
import { Float, int } from "./numbers.js";
import { pointsAt } from "./points.js";
import { str } from "./texts.js";

class JSONDecodeError extends ValueError {
  constructor(msg, text, place) {
    super(msg);
    this.msg = msg;
    this.pos = pointsAt(text, place);
  }
}

const NUMBER = /(-?(?:0|[1-9]\d*))(\.\d+)?([eE][-+]?\d+)?/y;
const PLAIN = /[^"\\\x00-\x1f]+/y;
const ESCAPES = { '"': '"', "\\": "\\", "/": "/", b: "\b", f: "\f", n: "\n", r: "\r", t: "\t" };
const WORDS = { null: null, true: true, false: false, NaN, Infinity, "-Infinity": -Infinity };

class Reader {
  constructor(text, strict) {
    this.text = text;
    this.strict = strict;
    this.place = 0;
  }
  fault(msg, place = this.place) { return new JSONDecodeError(msg, this.text, place); }
  skip() {
    while (" \t\n\r".includes(this.text[this.place] ?? "x")) this.place += 1;
  }
  taken(sign) {
    if (this.text[this.place] !== sign) return false;
    this.place += 1;
    return true;
  }
  value() {
    const sign = this.text[this.place];
    if (sign === '"') return this.string();
    if (sign === "{") return this.object();
    if (sign === "[") return this.array();
    for (const [word, value] of Object.entries(WORDS))
      if (this.text.startsWith(word, this.place)) {
        this.place += word.length;
        return typeof value === "number" ? new Float(value) : value;
      }
    return this.number();
  }
  number() {
    NUMBER.lastIndex = this.place;
    const found = NUMBER.exec(this.text);
    if (!found) throw this.fault("Expecting value");
    this.place += found[0].length;
    return found[2] || found[3] ? new Float(Number(found[0])) : int(found[1]);
  }
  array() {
    const items = [];
    this.place += 1;
    this.skip();
    if (this.taken("]")) return items;
    for (;;) {
      items.push(this.value());
      this.skip();
      if (this.taken("]")) return items;
      if (!this.taken(",")) throw this.fault("Expecting ',' delimiter");
      this.skip();
    }
  }
  object() {
    const made = new Dict();
    this.place += 1;
    this.skip();
    if (this.taken("}")) return made;
    for (;;) {
      if (this.text[this.place] !== '"') throw this.fault("Expecting property name enclosed in double quotes");
      const name = this.string();
      this.skip();
      if (!this.taken(":")) throw this.fault("Expecting ':' delimiter");
      this.skip();
      made.put(name, this.value());
      this.skip();
      if (this.taken("}")) return made;
      if (!this.taken(",")) throw this.fault("Expecting ',' delimiter");
      this.skip();
    }
  }
  string() {
    const begins = this.place;
    let made = "";
    this.place += 1;
    for (;;) {
      PLAIN.lastIndex = this.place;
      const plain = PLAIN.exec(this.text)?.[0] ?? "";
      made += plain;
      this.place += plain.length;
      const sign = this.text[this.place];
      if (sign === undefined) throw this.fault("Unterminated string starting at", begins);
      this.place += 1;
      if (sign === '"') return made;
      if (sign === "\\") made += this.escape(begins);
      else if (this.strict) throw this.fault("Invalid control character at", this.place - 1);
      else made += sign;
    }
  }
  escape(begins) {
    const sign = this.text[this.place];
    if (sign === undefined) throw this.fault("Unterminated string starting at", begins);
    if (sign in ESCAPES) {
      this.place += 1;
      return ESCAPES[sign];
    }
    if (sign !== "u") throw this.fault("Invalid \\escape: " + sign, this.place - 1);
    const digits = /^[0-9a-fA-F]{4}/.exec(this.text.slice(this.place + 1, this.place + 5));
    if (!digits) throw this.fault("Invalid \\uXXXX escape", this.place);
    this.place += 5;
    return String.fromCharCode(parseInt(digits[0], 16));
  }
}

function loads(text, { strict = true } = {}) {
  const reader = new Reader(text, strict);
  reader.skip();
  const value = reader.value();
  reader.skip();
  if (reader.place < text.length) throw reader.fault("Extra data");
  return value;
}

const unicode = (unit) => "\\u" + unit.charCodeAt(0).toString(16).padStart(4, "0");

function quoted(text, ascii) {
  const shorts = { '"': '\\"', "\\": "\\\\", "\b": "\\b", "\f": "\\f", "\n": "\\n", "\r": "\\r", "\t": "\\t" };
  const inside = text.replace(/["\\\x00-\x1f]/g, (sign) => shorts[sign] ?? unicode(sign));
  return '"' + (ascii ? inside.replace(/[^\x00-\x7e]/g, unicode) : inside) + '"';
}

function dumps(value, { ensure_ascii = true, separators = [", ", ": "] } = {}) {
  const inner = (one) => dumps(one, { ensure_ascii, separators });
  if (typeof value === "string") return quoted(value, ensure_ascii);
  if (value === null || typeof value === "boolean") return String(value);
  if (Array.isArray(value)) return `[${value.map(inner).join(separators[0])}]`;
  if (value instanceof Dict)
    return `{${value.items().map(([name, one]) => quoted(str(name), ensure_ascii) + separators[1] + inner(one)).join(separators[0])}}`;
  return str(value);
}

export const json = { loads, dumps };
