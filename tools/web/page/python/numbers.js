// Python's numbers and operators. A whole number that a number of JavaScript can't hold is a BigInt, and only such a one is.
import { TypeError, ValueError } from "./faults.js";
import { Items } from "./holders.js";

/** A number with a fraction of zero that was read as one, such as 1.0 in JSON. */
export class Float {
  constructor(value) { this.value = value; }
}

export const isWhole = (value) => typeof value === "bigint" || Number.isInteger(value);

/** A BigInt as the number that it is, where there is one. */
function settled(value) {
  return value >= Number.MIN_SAFE_INTEGER && value <= Number.MAX_SAFE_INTEGER ? Number(value) : value;
}

/** Of two numbers what `small` makes of them, or `wide` of them as BigInts where that comes out too large. */
function counted(one, other, small, wide) {
  if (typeof one === "boolean") one = Number(one);
  if (typeof other === "boolean") other = Number(other);
  if (typeof one === "number" && typeof other === "number") {
    const made = small(one, other);
    if (Number.isSafeInteger(made) || !Number.isInteger(one) || !Number.isInteger(other)) return made;
  }
  if (!isWhole(one) || !isWhole(other)) throw new TypeError("these are no numbers");
  return settled(wide(BigInt(one), BigInt(other)));
}

function joined(one, other) {
  const made = new Uint8Array(one.length + other.length);
  made.set(one);
  made.set(other, one.length);
  return made;
}

export function add(one, other) {
  if (typeof one === "number" && typeof other === "number") {
    const made = one + other;
    if (Number.isSafeInteger(made)) return made;
  }
  if (typeof one === "string") return one + other;
  if (Array.isArray(one)) return [...one, ...other];
  if (one instanceof Uint8Array) return joined(one, other);
  return counted(one, other, (a, b) => a + b, (a, b) => a + b);
}

/** `+=`, which lengthens a list in its place. */
export function extend(one, other) {
  if (!Array.isArray(one)) return add(one, other);
  for (const item of other) one.push(item);
  return one;
}

export function sub(one, other) {
  if (one instanceof Items) return new Items([...one].filter((item) => !other.has(item)));
  if (typeof one?.minus === "function") return one.minus(other);
  return counted(one, other, (a, b) => a - b, (a, b) => a - b);
}

export function mul(one, other) {
  if (typeof one === "string") return one.repeat(Math.max(0, Number(other)));
  if (Array.isArray(one)) return Array.from({ length: Math.max(0, Number(other)) }, () => one).flat();
  return counted(one, other, (a, b) => a * b, (a, b) => a * b);
}

/** A quotient; of a path and a name the longer path. */
export function div(one, other) {
  return typeof one === "string" ? `${one}/${other}` : Number(one) / Number(other);
}

const down = (one, other) => one / other - (one % other !== 0n && one < 0n !== other < 0n ? 1n : 0n);

export function floordiv(one, other) {
  if (Number(other) === 0) throw new ValueError("division by zero");
  return counted(one, other, (a, b) => Math.floor(a / b), down);
}

export function mod(one, other) {
  if (one instanceof Uint8Array) return new TextEncoder().encode(new TextDecoder().decode(one).replace("%d", String(other)));
  return counted(one, other, (a, b) => a - b * Math.floor(a / b), (a, b) => a - b * down(a, b));
}

export const pow = (one, other) => counted(one, other, (a, b) => a ** b, (a, b) => a ** b);
const never = () => NaN;
export const shl = (one, other) => counted(one, other, never, (a, b) => a << b);
export const shr = (one, other) => counted(one, other, never, (a, b) => a >> b);
export const xor = (one, other) => counted(one, other, never, (a, b) => a ^ b);

function both(one, other) {
  if (one instanceof Items) return new Items([...one].filter((item) => other.has(item)));
  return counted(one, other, never, (a, b) => a & b);
}

function either(one, other) {
  return one instanceof Items ? new Items([...one, ...other]) : counted(one, other, never, (a, b) => a | b);
}

export { both as and, either as or };

/** The value of a decimal digit of any script. */
function digitOf(sign) {
  let zero = sign.codePointAt(0);
  // Mathematical digits stand five times in a row.
  if (zero >= 0x1d7ce && zero <= 0x1d7ff) return (zero - 0x1d7ce) % 10;
  while (/\p{Nd}/u.test(String.fromCodePoint(zero - 1))) zero -= 1;
  return sign.codePointAt(0) - zero;
}

export function int(value, base = 10) {
  if (typeof value === "number") return settled(BigInt(Math.trunc(value)));
  if (typeof value === "bigint" || typeof value === "boolean") return settled(BigInt(value));
  if (typeof value !== "string") throw new TypeError("this is no number");
  const text = value.trim().replace(/\p{Nd}/gu, (sign) => String(digitOf(sign)));
  const found = /^([-+]?)(?:0[xX](?=[\s\S]))?([0-9a-fA-F]+(?:_[0-9a-fA-F]+)*)$/.exec(text);
  const digits = found && found[2].replaceAll("_", "");
  const fits = base === 16 ? digits : digits && /^[0-9]+$/.test(digits) && !/^[-+]?0[xX]/.test(text);
  if (!fits) throw new ValueError(`invalid literal for int(): ${value}`);
  const made = BigInt(base === 16 ? "0x" + digits : digits);
  return settled(found[1] === "-" ? -made : made);
}

export function float(value) {
  if (typeof value !== "string") return Number(value);
  const text = value.trim();
  if (/^[-+]?(inf|infinity)$/i.test(text)) return text.startsWith("-") ? -Infinity : Infinity;
  if (/^[-+]?nan$/i.test(text)) return NaN;
  if (!/^[-+]?(\d+\.?\d*|\.\d+)(e[-+]?\d+)?$/i.test(text)) throw new ValueError(`could not convert string to float: ${value}`);
  return Number(text);
}

/** To so many digits after the point, a half to the even one. */
export function round(value, digits = 0) {
  return Number(fixed(value, digits));
}

export function abs(value) {
  return value < 0 ? sub(0, value) : value;
}

/** A number with so many digits after its point: JavaScript rounds an exact half up, and Python to the even digit. */
export function fixed(value, digits) {
  const text = Number(value).toFixed(digits), scaled = Math.abs(Number(value)) * 10 ** digits;
  if (!Number.isInteger(scaled * 2) || Number.isInteger(scaled) || Math.floor(scaled) % 2) return text;
  return ((Math.sign(Number(value)) * Math.floor(scaled)) / 10 ** digits).toFixed(digits);
}
