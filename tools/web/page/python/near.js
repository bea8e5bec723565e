// Python's difflib, as far as it finds words that are much like another.
import { gt } from "./values.js";

/** The longest stretch that two texts share within these bounds: where it begins in each, and its length. */
function longest(one, places, [from, to, begins, ends]) {
  let best = [from, begins, 0], before = new Map();
  for (let at = from; at < to; at += 1) {
    const lengths = new Map();
    for (const place of places.get(one[at]) ?? []) {
      if (place < begins) continue;
      if (place >= ends) break;
      const length = (before.get(place - 1) ?? 0) + 1;
      lengths.set(place, length);
      if (length > best[2]) best = [at - length + 1, place - length + 1, length];
    }
    before = lengths;
  }
  return best;
}

/** How many signs of two texts match, stretch by stretch. */
function matching(one, other) {
  const places = new Map();
  other.forEach((sign, place) => places.set(sign, [...(places.get(sign) ?? []), place]));
  const waiting = [[0, one.length, 0, other.length]];
  let count = 0;
  while (waiting.length) {
    const bounds = waiting.pop(), [at, place, length] = longest(one, places, bounds);
    if (!length) continue;
    count += length;
    waiting.push([bounds[0], at, bounds[2], place], [at + length, bounds[1], place + length, bounds[3]]);
  }
  return count;
}

function likeness(one, other) {
  const total = one.length + other.length;
  return total ? (2 * matching(one, other)) / total : 1;
}

function get_close_matches(word, names, most = 3, least = 0.6) {
  const wanted = Array.from(word);
  const scored = [...names].map((name) => [likeness(Array.from(name), wanted), name]).filter(([score]) => score >= least);
  return scored.sort((one, other) => (gt(one, other) ? -1 : 1)).slice(0, most).map(([, name]) => name);
}

export const difflib = { get_close_matches };
