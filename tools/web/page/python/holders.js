// Dictionaries and sets, whose keys are equal as Python's are: by what they hold.
import { KeyError } from "./faults.js";

/** What stands for a key in a Map: a number or a text by itself, a tuple or a frozen object by its parts. */
function plain(key) {
  if (typeof key === "number") return key;
  if (typeof key === "string") return key.startsWith("\0") ? "\0s" + key : key;
  if (typeof key === "boolean") return Number(key);
  if (Array.isArray(key)) return "\0t" + key.map(tagged).join("\0,");
  if (key !== null && typeof key === "object" && key.constructor.fields)
    return "\0o" + key.constructor.name + key.constructor.fields.map((name) => tagged(key[name])).join("\0,");
  return key;
}

const tagged = (part) => `${typeof part === "string" ? "s" : "n"}${String(plain(part))}`;

export class Dict {
  constructor(pairs = []) {
    this.entries = new Map();
    for (const [key, value] of pairs) this.put(key, value);
  }
  get size() { return this.entries.size; }
  [Symbol.iterator]() { return this.keys()[Symbol.iterator](); }
  has(key) { return this.entries.has(plain(key)); }
  get(key, otherwise = null) {
    const found = this.entries.get(plain(key));
    return found === undefined ? otherwise : found[1];
  }
  put(key, value) {
    const name = plain(key), found = this.entries.get(name);
    if (found === undefined) this.entries.set(name, [key, value]);
    else found[1] = value;
  }
  remove(key) {
    if (!this.entries.delete(plain(key))) throw new KeyError(String(key));
  }
  pop(key, otherwise) {
    const found = this.entries.get(plain(key));
    if (found === undefined && otherwise === undefined) throw new KeyError(String(key));
    this.entries.delete(plain(key));
    return found === undefined ? otherwise : found[1];
  }
  setdefault(key, value = null) {
    if (!this.has(key)) this.put(key, value);
    return this.get(key);
  }
  update(other) {
    for (const [key, value] of other.items()) this.put(key, value);
  }
  items() { return [...this.entries.values()].map(([key, value]) => [key, value]); }
  keys() { return [...this.entries.values()].map(([key]) => key); }
  values() { return [...this.entries.values()].map(([, value]) => value); }
}

export class Items {
  constructor(all = []) {
    this.entries = new Map();
    this.update(all);
  }
  get size() { return this.entries.size; }
  [Symbol.iterator]() { return [...this.entries.values()][Symbol.iterator](); }
  has(item) { return this.entries.has(plain(item)); }
  add(item) {
    if (!this.has(item)) this.entries.set(plain(item), item);
  }
  update(all) {
    for (const item of all) this.add(item);
  }
  discard(item) { this.entries.delete(plain(item)); }
}

export function dict(pairs) {
  return new Dict(pairs instanceof Dict ? pairs.items() : pairs);
}
dict.fromkeys = (keys, value = null) => new Dict([...keys].map((key) => [key, value]));

const made = (all) => new Items(all);
export { made as set, made as frozenset };
