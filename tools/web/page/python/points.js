// The characters of texts. Python counts code points, and JavaScript halves of those that need a pair of surrogates.
import { IndexError, TypeError } from "./faults.js";

const PAIR = /[\ud800-\udbff][\udc00-\udfff]/;
/** Of a shorter text it is found anew each time. */
const SHORT = 64;

let text = "", points = null, places = null;

/** The code points of a text that has pairs in it; null of any other. The last long text's are kept. */
export function pointsOf(given) {
  if (given.length < SHORT) return PAIR.test(given) ? Array.from(given) : null;
  if (given !== text) {
    text = given;
    points = PAIR.test(given) ? Array.from(given) : null;
    places = null;
  }
  return points;
}

export const lengthOf = (given) => pointsOf(given)?.length ?? given.length;

export function signAt(given, place) {
  if (typeof place !== "number") throw new TypeError("a place in a text is a number");
  const all = pointsOf(given) ?? given;
  const sign = all[place < 0 ? all.length + place : place];
  if (sign === undefined) throw new IndexError("the text is shorter");
  return sign;
}

export function pieceOf(given, from, to) {
  const all = pointsOf(given), length = all?.length ?? given.length;
  const begins = from < 0 ? Math.max(0, length + from) : from;
  const ends = to === null || to === undefined ? length : to < 0 ? Math.max(0, length + to) : to;
  if (ends <= begins) return "";
  return all === null ? given.slice(begins, ends) : all.slice(begins, ends).join("");
}

/** Of each code point of a text with pairs where it begins, and where the text ends. */
function placesOf(given) {
  const all = pointsOf(given), short = given.length < SHORT;
  if (!short && places !== null) return places;
  const found = [0];
  for (const sign of all) found.push(found[found.length - 1] + sign.length);
  if (!short) places = found;
  return found;
}

/** Where the code point of a place begins, in JavaScript's counting. */
export function unitsAt(given, place) {
  return pointsOf(given) === null ? place : placesOf(given)[Math.min(place, lengthOf(given))];
}

/** How many code points stand before a place in JavaScript's counting. */
export function pointsAt(given, place) {
  if (pointsOf(given) === null) return place;
  const all = placesOf(given);
  let low = 0, high = all.length - 1;
  while (low < high) {
    const middle = (low + high) >> 1;
    if (all[middle] < place) low = middle + 1;
    else high = middle;
  }
  return low;
}
