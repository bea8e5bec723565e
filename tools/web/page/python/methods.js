// Methods of Python's texts, bytes and lists. What is called on an object of another kind is that object's own.
import { IndexError, TypeError, ValueError } from "./faults.js";
import { lengthOf, pieceOf, pointsAt, unitsAt } from "./points.js";
import { decoded, encoded } from "./texts.js";
import { eq, sorted } from "./values.js";

const SPACE = "\\t-\\r\\x1c-\\x20\\x85\\xa0\\u1680\\u2000-\\u200a\\u2028\\u2029\\u202f\\u205f\\u3000";
const SPACES = new RegExp(`[${SPACE}]+`, "u");
const ALL_SPACE = new RegExp(`^[${SPACE}]+$`, "u");

/** A method that texts have, where others may have one of the same name. */
function ofTexts(name, does) {
  return (held, ...given) => {
    if (typeof held === "string") return does(held, ...given);
    if (typeof held?.[name] !== "function") throw new TypeError(`there is no ${name}`);
    return held[name](...given);
  };
}

function split(text, sign = null, most = -1) {
  if (sign === null) return strip(text).split(SPACES).filter((word) => word !== "");
  const words = text.split(sign);
  return most < 0 || words.length <= most + 1 ? words : [...words.slice(0, most), words.slice(most).join(sign)];
}

function rsplit(text, sign, most) {
  const words = text.split(sign), first = Math.max(1, words.length - most);
  return [words.slice(0, first).join(sign), ...words.slice(first)];
}

function partition(text, sign) {
  const place = text.indexOf(sign);
  return place < 0 ? [text, "", ""] : [text.slice(0, place), sign, text.slice(place + sign.length)];
}

const isStripped = (signs) => (sign) => (signs === null ? ALL_SPACE.test(sign) : signs.includes(sign));

function lstrip(text, signs = null) {
  const goes = isStripped(signs);
  let from = 0;
  while (from < text.length && goes(text[from])) from += 1;
  return text.slice(from);
}

function rstrip(text, signs = null) {
  const goes = isStripped(signs);
  let to = text.length;
  while (to > 0 && goes(text[to - 1])) to -= 1;
  return text.slice(0, to);
}

const strip = (text, signs = null) => lstrip(rstrip(text, signs), signs);
const fronts = (signs) => (Array.isArray(signs) ? signs : [signs]);

function startswith(held, signs, place = 0) {
  if (held instanceof Uint8Array) return signs.every((byte, at) => held[at] === byte);
  const from = unitsAt(held, place);
  return fronts(signs).some((sign) => held.startsWith(sign, from));
}

function find(text, sign, from = 0) {
  const place = text.indexOf(sign, unitsAt(text, from));
  return place < 0 ? -1 : pointsAt(text, place);
}

/** The last place of some bytes in others. */
function rfind(raw, wanted) {
  for (let place = raw.length - wanted.length; place >= 0; place -= 1) {
    let same = 0;
    while (same < wanted.length && raw[place + same] === wanted[same]) same += 1;
    if (same === wanted.length) return place;
  }
  return -1;
}

function indexIn(held, item) {
  const place = typeof held === "string" ? find(held, item) : held.findIndex((one) => eq(one, item));
  if (place < 0) throw new ValueError("it isn't there");
  return place;
}

function count(held, item, from = 0, to = null) {
  const parts = typeof held === "string" ? pieceOf(held, from, to).split(item).length - 1 : 0;
  return typeof held === "string" ? parts : held.filter((one) => eq(one, item)).length;
}

function pop(held, ...given) {
  if (!Array.isArray(held)) return held.pop(...given);
  if (!held.length) throw new IndexError("there is nothing");
  const place = given.length ? given[0] : -1;
  return held.splice(place < 0 ? held.length + place : place, 1)[0];
}

const filled = (text, width) => " ".repeat(Math.max(0, width - lengthOf(text)));

function zfill(text, width) {
  const sign = /^[-+]/.exec(text)?.[0] ?? "";
  return sign + text.slice(sign.length).padStart(width - sign.length, "0");
}

export const methods = {
  append: (list, item) => void list.push(item),
  extend: (list, items) => void list.push(...items),
  insert: (list, place, item) => void list.splice(place, 0, item),
  pop,
  remove: (list, item) => void list.splice(indexIn(list, item), 1),
  sort: (list, named = {}) => void list.splice(0, list.length, ...sorted(list, named)),
  index: indexIn,
  count,
  decode: decoded,
  encode: (text, encoding) => encoded(text, encoding),
  hex: (raw) => Array.from(raw, (byte) => byte.toString(16).padStart(2, "0")).join(""),
  find: ofTexts("find", find),
  rfind,
  split: ofTexts("split", split),
  rsplit: ofTexts("rsplit", rsplit),
  partition: ofTexts("partition", partition),
  strip: ofTexts("strip", strip),
  lstrip: ofTexts("lstrip", lstrip),
  rstrip: ofTexts("rstrip", rstrip),
  startswith,
  endswith: ofTexts("endswith", (text, signs) => fronts(signs).some((sign) => text.endsWith(sign))),
  replace: ofTexts("replace", (text, old, other) => text.replaceAll(old, () => other)),
  join: ofTexts("join", (text, parts) => [...parts].join(text)),
  lower: ofTexts("lower", (text) => text.toLowerCase()),
  upper: ofTexts("upper", (text) => text.toUpperCase()),
  isdecimal: ofTexts("isdecimal", (text) => /^\p{Nd}+$/u.test(text)),
  isspace: ofTexts("isspace", (text) => ALL_SPACE.test(text)),
  ljust: ofTexts("ljust", (text, width, sign = " ") => text + filled(text, width).replaceAll(" ", sign)),
  zfill: ofTexts("zfill", zfill),
};
