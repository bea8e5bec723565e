// Python's exceptions. What JavaScript throws by itself where a value is of a wrong kind counts as TypeError and AttributeError.

export class Exception extends Error {}
export class ValueError extends Exception {}
export class IndexError extends Exception {}
export class KeyError extends Exception {}
export class AttributeError extends Exception {}
export class StopIteration extends Exception {}
export class UnicodeDecodeError extends ValueError {}

class PythonTypeError extends Exception {}
export { PythonTypeError as TypeError };

const binascii = { Error: class extends ValueError {} };
export { binascii };

/** Whether an `except` of these kinds catches a fault. */
export function caught(fault, ...kinds) {
  const native = fault instanceof globalThis.TypeError;
  return kinds.some((kind) => fault instanceof kind || (native && (kind === PythonTypeError || kind === AttributeError)));
}
