// Values as texts, as Python's str, repr and f-strings have them, and texts as bytes.
import { Exception, UnicodeDecodeError, ValueError } from "./faults.js";
import { Float, fixed } from "./numbers.js";
import { lengthOf } from "./points.js";

/** A number with a fraction as Python prints it. */
function fraction(value) {
  if (Number.isNaN(value)) return "nan";
  if (!Number.isFinite(value)) return value < 0 ? "-inf" : "inf";
  const said = String(value).replace(/e([-+])(\d)$/, "e$10$2");
  return /[.e]/.test(said) ? said : `${said}.0`;
}

export function str(value) {
  if (typeof value === "string") return value;
  if (value === null || value === undefined) return "None";
  if (typeof value === "boolean") return value ? "True" : "False";
  if (typeof value === "number") return Number.isInteger(value) ? String(value) : fraction(value);
  if (value instanceof Float) return fraction(value.value);
  return value instanceof Exception ? value.message : String(value);
}

const ESCAPES = { "\\": "\\\\", "\n": "\\n", "\r": "\\r", "\t": "\\t" };
const UNSEEN = /[\\\n\r\t\p{Cc}\p{Cf}\p{Cs}\p{Zl}\p{Zp}]/gu;

function escaped(sign) {
  if (sign in ESCAPES) return ESCAPES[sign];
  const code = sign.codePointAt(0), digits = code < 0x100 ? 2 : code < 0x10000 ? 4 : 8;
  return `\\${"xuU"[Math.log2(digits) - 1]}${code.toString(16).padStart(digits, "0")}`;
}

export function repr(value) {
  if (typeof value !== "string") return str(value);
  const quote = value.includes("'") && !value.includes('"') ? '"' : "'";
  const inside = value.replace(UNSEEN, escaped);
  return quote + (quote === "'" ? inside.replaceAll("'", "\\'") : inside) + quote;
}

const SPEC = /^(?:(.)?([<>^]))?(0)?(\d+)?(?:\.(\d+))?([dfsx])?$/su;

/** A value as a part of an f-string with a format, such as `:02x` or `:>11`. */
export function format(value, spec) {
  const [, fill, align, zero, width, digits, kind] = SPEC.exec(spec);
  let said = str(value);
  if (kind === "f") said = fixed(value, Number(digits ?? 6));
  if (kind === "x") said = BigInt(value).toString(16);
  const room = Math.max(0, Number(width ?? 0) - lengthOf(said));
  const side = align ?? (typeof value === "string" ? "<" : ">");
  const filled = (fill ?? (zero ? "0" : " ")).repeat(side === "^" ? 0 : room);
  return side === "<" ? said + filled : filled + said;
}

export const ord = (sign) => sign.codePointAt(0);
export const chr = (code) => String.fromCodePoint(code);

// A byte that is no UTF-8 becomes a low surrogate of its own, as Python's `surrogateescape` does, and becomes the byte again.
const LONE = /[\udc80-\udcff]/;
const NO_PAIR = /[\ud800-\udbff](?![\udc00-\udfff])|(?<![\ud800-\udbff])[\udc00-\udfff]/;

/** How many bytes the character that begins there has; 0 where none does. */
function widthAt(raw, place) {
  const first = raw[place];
  if (first < 0x80) return 1;
  const width = first >= 0xc2 && first < 0xe0 ? 2 : first >= 0xe0 && first < 0xf0 ? 3 : first >= 0xf0 && first < 0xf5 ? 4 : 0;
  if (!width || place + width > raw.length) return 0;
  for (let at = 1; at < width; at += 1) if ((raw[place + at] & 0xc0) !== 0x80) return 0;
  const second = raw[place + 1];
  const least = { 0xe0: 0xa0, 0xf0: 0x90 }[first] ?? 0x80, most = { 0xed: 0x9f, 0xf4: 0x8f }[first] ?? 0xbf;
  return second >= least && second <= most ? width : 0;
}

function escapedText(raw) {
  const parts = [], reader = new TextDecoder("utf-8", { ignoreBOM: true });
  let begins = 0, place = 0;
  while (place < raw.length) {
    const width = widthAt(raw, place);
    if (width) {
      place += width;
      continue;
    }
    parts.push(reader.decode(raw.subarray(begins, place)), String.fromCharCode(0xdc00 + raw[place]));
    place += 1;
    begins = place;
  }
  return parts.join("") + reader.decode(raw.subarray(begins));
}

export function decoded(raw, encoding = "utf-8", faults = "strict") {
  if (raw instanceof Wide) return raw.text();
  if (faults !== "surrogateescape") return new TextDecoder("utf-8", { ignoreBOM: true }).decode(raw);
  try {
    return new TextDecoder("utf-8", { fatal: true, ignoreBOM: true }).decode(raw);
  } catch {
    return escapedText(raw);
  }
}

export function encoded(text, encoding = "utf-8") {
  if (encoding === "utf-16") return new Wide(text);
  if (!LONE.test(text) || !NO_PAIR.test(text)) return new TextEncoder().encode(text);
  const parts = text.split(/((?<![\ud800-\udbff])[\udc80-\udcff])/);
  const bytes = parts.map((part, place) => (place % 2 ? [part.charCodeAt(0) - 0xdc00] : [...new TextEncoder().encode(part)]));
  return Uint8Array.from(bytes.flat());
}

/** A text in UTF-16, which JavaScript has already. */
class Wide {
  constructor(text) { this.held = text; }
  text() {
    if (NO_PAIR.test(this.held)) throw new UnicodeDecodeError("half of a pair of surrogates");
    return this.held;
  }
}

/** The bytes of a literal such as b"..". */
export const bytes = (literal) => Uint8Array.from(literal, (sign) => sign.charCodeAt(0));

bytes.fromhex = (digits) => {
  const plain = digits.replace(/[ \t\n\r\f\v]+/g, "");
  if (plain.length % 2 || !/^[0-9a-fA-F]*$/.test(plain)) throw new ValueError("these are no hex digits");
  return Uint8Array.from(plain.match(/../g) ?? [], (pair) => parseInt(pair, 16));
};
