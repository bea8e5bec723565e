// What Python brings by itself, for modules that tools/build_web translates: the part that the lab uses, and no more.
export * from "./faults.js";
export * from "./holders.js";
export * from "./numbers.js";
export * from "./texts.js";
export * from "./values.js";
export { methods } from "./methods.js";
export * from "./libraries.js";
export { json } from "./json.js";
export { difflib } from "./near.js";
export { re } from "./patterns.js";
