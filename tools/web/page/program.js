// The program in a browser: its module, and the few calls by which it reads and writes (see tools/web/c/shim.c).

const OUT_OF_MEMORY = 1;
const NONE = -1n, TOO_SMALL = -2n;
/** How a WebAssembly module with a memory of 64 bits begins, so that a browser says whether it takes one. */
const WIDE_MEMORY = [0, 0x61, 0x73, 0x6d, 1, 0, 0, 0, 5, 3, 1, 4, 1];

export const UNFIT =
  "This browser doesn't run WebAssembly with 64-bit memory, so the program can't start here. " +
  "Chrome and Edge do from version 133, and Firefox from 134.";

/** Whether the browser can run the program at all. */
export function isFit() {
  const compresses = typeof CompressionStream === "function";
  return compresses && typeof WebAssembly === "object" && WebAssembly.validate(Uint8Array.from(WIDE_MEMORY));
}

class Ended extends Error {
  constructor(status) {
    super("the program ended");
    this.status = status;
  }
}

function joined(parts) {
  const whole = new Uint8Array(parts.reduce((size, part) => size + part.length, 0));
  let place = 0;
  for (const part of parts) {
    whole.set(part, place);
    place += part.length;
  }
  return whole;
}

/** The calls that the module imports, for one run. */
function callsOf(words, given, output, memory) {
  let taken = 0;
  return {
    put: (file, from, count) => {
      if (file === 1) output.push(memory().slice(Number(from), Number(from + count)));
    },
    get: (to, room) => {
      const part = given.subarray(taken, taken + Number(room));
      memory().set(part, Number(to));
      taken += part.length;
      return BigInt(part.length);
    },
    words: () => BigInt(words.length),
    word: (place, to, room) => {
      const word = words[Number(place)];
      if (word === undefined) return NONE;
      if (word.length > Number(room)) return TOO_SMALL;
      memory().set(word, Number(to));
      return BigInt(word.length);
    },
    quit: (status) => {
      throw new Ended(status);
    },
  };
}

/** Runs the program on these words and this input. Each run has a memory of its own. */
export function runProgram(module, words, given) {
  const spelled = ["replset", ...words].map((word) => new TextEncoder().encode(word));
  const output = [];
  let memory = null;
  const page = callsOf(spelled, given, output, () => new Uint8Array(memory.buffer));
  const { exports } = new WebAssembly.Instance(module, { page });
  memory = exports.memory;
  return { status: statusOf(() => exports.main(0, 0n)), output: joined(output) };
}

function statusOf(main) {
  try {
    return main();
  } catch (fault) {
    if (fault instanceof Ended) return fault.status;
    // The module's stack or its memory is used up.
    if (fault instanceof RangeError || fault instanceof WebAssembly.RuntimeError) return OUT_OF_MEMORY;
    throw fault;
  }
}
