// The small parts of Python's libraries that the lab uses.
import { TypeError, ValueError, binascii } from "./faults.js";
import { eq, lt } from "./values.js";

export const time = { monotonic: () => performance.now() / 1000 };

/** Lines are broken by who shows them. */
export const textwrap = {
  wrap: (text, width, { initial_indent = "" } = {}) => (text.trim() ? [initial_indent + text.trim().split(/\s+/).join(" ")] : []),
};

/** xml.sax.saxutils.escape. */
export const escape = (text) => text.replaceAll("&", "&amp;").replaceAll(">", "&gt;").replaceAll("<", "&lt;");

export const base64 = {
  b64decode: (text) => {
    if (typeof text !== "string") throw new TypeError("this is no base64");
    if (!/^(?:[A-Za-z0-9+/]{4})*(?:[A-Za-z0-9+/]{2}==|[A-Za-z0-9+/]{3}=)?$/.test(text)) throw new binascii.Error("this is no base64");
    return Uint8Array.from(atob(text), (sign) => sign.charCodeAt(0));
  },
  b64encode: (raw) => new TextEncoder().encode(btoa(String.fromCharCode(...raw))),
};

export function bisect_left(list, item) {
  let low = 0, high = list.length;
  while (low < high) {
    const middle = (low + high) >> 1;
    if (lt(list[middle], item)) low = middle + 1;
    else high = middle;
  }
  return low;
}

export function bisect_right(list, item) {
  let low = 0, high = list.length;
  while (low < high) {
    const middle = (low + high) >> 1;
    if (lt(item, list[middle])) high = middle;
    else low = middle + 1;
  }
  return low;
}

export const insort = (list, item) => void list.splice(bisect_right(list, item), 0, item);

/** itertools.groupby: each key with what follows each other under it. */
export function groupby(values, { key = (value) => value } = {}) {
  const groups = [];
  for (const value of values) {
    const name = key(value), last = groups[groups.length - 1];
    if (last && eq(last[0], name)) last[1].push(value);
    else groups.push([name, [value]]);
  }
  return groups;
}

class Moment {
  constructor(milliseconds) { this.milliseconds = milliseconds; }
  minus(other) {
    const seconds = (this.milliseconds - other.milliseconds) / 1000, days = Math.floor(seconds / 86400);
    return { days, seconds: seconds - days * 86400 };
  }
}

/** A moment of the calendar, from the year 1 to 9999. */
export function datetime(year, month, day, hour = 0, minute = 0, second = 0) {
  const made = new Date(0);
  made.setUTCFullYear(year, month - 1, day);
  made.setUTCHours(hour, minute, second);
  const isDay = made.getUTCMonth() === month - 1 && made.getUTCDate() === day;
  if (year < 1 || !isDay || hour > 23 || minute > 59 || second > 59) throw new ValueError("there is no such moment");
  return new Moment(made.getTime());
}
