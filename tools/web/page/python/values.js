// Python's functions over values of every kind: truth, equality, order, places, and what goes over many.
import { AttributeError, IndexError, KeyError, StopIteration, TypeError, ValueError } from "./faults.js";
import { Dict, Items } from "./holders.js";
import { Float, add } from "./numbers.js";
import { lengthOf, pieceOf, signAt } from "./points.js";

export function bool(value) {
  if (Array.isArray(value) || value instanceof Uint8Array) return value.length > 0;
  if (value instanceof Dict || value instanceof Items) return value.size > 0;
  return Boolean(value);
}

export const either = (one, other) => (bool(one) ? one : other());
export const both = (one, other) => (bool(one) ? other() : one);

const sameUnder = (one, other) => (key) => other.has(key) && eq(one.get(key), other.get(key));
const sameParts = (one, other) => one.length === other.length && one.every((part, place) => eq(part, other[place]));

export function eq(one, other) {
  if (one === other) return true;
  if (typeof one === "boolean" || typeof other === "boolean") return Number(one) === Number(other) && typeof one !== "string";
  if (one === null || other === null || typeof one !== "object" || typeof other !== "object") return false;
  if (Array.isArray(one)) return Array.isArray(other) && sameParts(one, other);
  if (one instanceof Uint8Array) return other instanceof Uint8Array && sameParts([...one], [...other]);
  if (one instanceof Dict) return other instanceof Dict && one.size === other.size && one.keys().every(sameUnder(one, other));
  if (one instanceof Items) return other instanceof Items && one.size === other.size && [...one].every((item) => other.has(item));
  const fields = one.constructor.fields;
  return fields !== undefined && one.constructor === other.constructor && fields.every((name) => eq(one[name], other[name]));
}

export function lt(one, other) {
  if (!Array.isArray(one)) {
    if (one instanceof Items) return le(one, other) && one.size < other.size;
    if (typeof one === "string" !== (typeof other === "string")) throw new TypeError("these have no order");
    return one < other;
  }
  const place = one.findIndex((part, at) => at >= other.length || !eq(part, other[at]));
  if (place < 0) return one.length < other.length;
  return place < other.length && lt(one[place], other[place]);
}

export function le(one, other) {
  if (one instanceof Items) return [...one].every((item) => other.has(item));
  return !lt(other, one);
}
export const gt = (one, other) => lt(other, one);
export const ge = (one, other) => le(other, one);

export function has(holder, item) {
  if (typeof holder === "string") return holder.includes(item);
  if (holder instanceof Dict || holder instanceof Items) return holder.has(item);
  for (const one of holder) if (eq(one, item)) return true;
  return false;
}

export function len(value) {
  if (typeof value === "string") return lengthOf(value);
  if (value instanceof Dict || value instanceof Items) return value.size;
  return value.length;
}

export function get(holder, place) {
  if (Array.isArray(holder) || holder instanceof Uint8Array) {
    const item = holder[place < 0 ? holder.length + place : Number(place)];
    if (item === undefined) throw new IndexError(`there is no place ${place}`);
    return item;
  }
  if (typeof holder === "string") return signAt(holder, place);
  if (holder instanceof Dict) {
    if (!holder.has(place)) throw new KeyError(String(place));
    return holder.get(place);
  }
  return holder.group(place);
}

export function put(holder, place, value) {
  if (Array.isArray(holder)) holder[place < 0 ? holder.length + place : place] = value;
  else holder.put(place, value);
}

export function remove(holder, place) {
  if (Array.isArray(holder)) holder.splice(place < 0 ? holder.length + place : place, 1);
  else holder.remove(place);
}

const clamped = (place, length) => Math.max(0, Math.min(length, place < 0 ? length + place : place));

export function slice(holder, from, to) {
  if (typeof holder === "string") return pieceOf(holder, from ?? 0, to);
  const length = holder.length;
  return holder.slice(clamped(from ?? 0, length), clamped(to ?? length, length));
}

export function set_slice(list, from, to, items) {
  const begins = clamped(from ?? 0, list.length), ends = Math.max(begins, clamped(to ?? list.length, list.length));
  const rest = list.splice(begins);
  for (const item of items) list.push(item);
  for (const item of rest.slice(ends - begins)) list.push(item);
}

export function unpack(values, count) {
  const parts = Array.isArray(values) ? values : [...values];
  if (parts.length !== count) throw new ValueError(`${parts.length} values, where ${count} were expected`);
  return parts;
}

const listed = (values = []) => [...values];
export { listed as list, listed as tuple };

class Range {
  constructor(from, to, step) {
    Object.assign(this, { from, to, step });
    this.length = Math.max(0, Math.ceil((to - from) / step));
  }
  *[Symbol.iterator]() {
    for (let place = 0; place < this.length; place += 1) yield this.from + place * this.step;
  }
  group(place) { return this.from + place * this.step; }
  slice(from, to) { return [...this].slice(from, to); }
}

export const range = (from, to, step = 1) => (to === undefined ? new Range(0, from, step) : new Range(from, to, step));

export function* enumerate(values, from = 0) {
  for (const value of values) yield [from++, value];
}

export function* zip(...many) {
  const all = many.map((one) => one[Symbol.iterator]());
  if (!all.length) return;
  for (;;) {
    const next = all.map((one) => one.next());
    if (next.some((one) => one.done)) return;
    yield next.map((one) => one.value);
  }
}

export function* map(does, ...many) {
  for (const given of many.length === 1 ? many[0] : zip(...many)) yield many.length === 1 ? does(given) : does(...given);
}

export const iter = (values) => values[Symbol.iterator]();

export function next(values, ...otherwise) {
  const found = values.next();
  if (!found.done) return found.value;
  if (!otherwise.length) throw new StopIteration("there is no next");
  return otherwise[0];
}

export function any(values) {
  for (const value of values) if (bool(value)) return true;
  return false;
}

export function all(values) {
  for (const value of values) if (!bool(value)) return false;
  return true;
}

export function sum(values) {
  let total = 0;
  for (const value of values) total = add(total, Number(value));
  return total;
}

export const reversed = (values) => [...values].reverse();

export function sorted(values, { key = (value) => value, reverse = false } = {}) {
  const keyed = [...values].map((value) => [key(value), value]);
  keyed.sort(([one], [other]) => (lt(one, other) ? -1 : lt(other, one) ? 1 : 0) * (reverse ? -1 : 1));
  return keyed.map(([, value]) => value);
}

const isNamed = (value) => value !== null && typeof value === "object" && value.constructor === Object;

/** The first of the values that no other goes before. */
function best(given, before) {
  const { key = (value) => value, default: otherwise } = isNamed(given[given.length - 1]) ? given.pop() : {};
  const values = given.length === 1 ? [...given[0]] : given;
  if (!values.length && otherwise !== undefined) return otherwise;
  if (!values.length) throw new ValueError("there is no value");
  return values.reduce((found, value) => (before(key(value), key(found)) ? value : found));
}

export const min = (...given) => best(given, lt);
export const max = (...given) => best(given, gt);

const KINDS = {
  str: (value) => typeof value === "string",
  bool: (value) => typeof value === "boolean",
  int: (value) => Number.isInteger(value) || typeof value === "bigint" || typeof value === "boolean",
  float: (value) => value instanceof Float || (typeof value === "number" && !Number.isInteger(value)),
  dict: (value) => value instanceof Dict,
  list: (value) => Array.isArray(value),
};

export function isinstance(value, ...kinds) {
  return kinds.some((kind) => (typeof kind === "string" ? KINDS[kind](value) : value instanceof kind));
}

/** What an object has under a name, or Python's fault where it has nothing of that name. */
export function attribute(value, name) {
  const found = value[name];
  if (found === undefined) throw new AttributeError(name);
  return found;
}

/** The same where that may be a method, which keeps its object. */
export function bound(value, name) {
  const found = attribute(value, name);
  return typeof found === "function" ? found.bind(value) : found;
}

export function getattr(value, name, otherwise) {
  const found = value[name];
  return found === undefined && otherwise !== undefined ? otherwise : attribute(value, name);
}
