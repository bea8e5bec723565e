// What the lab's modules take from where they run: in the lab a program and files, here what the page has of them.

let runs = null;
const pages = new Map();

/** The files of a checkout that the lab reads. */
export const PAGE = "docs/REFERENCE.md";
export const TERMS = "docs/GLOSSARY.md";

/** Has the program run by this function of its words and its input, which gives its status and its output. */
export function runBy(does) {
  runs = does;
}

export function keepPage(path, text) {
  pages.set(path, text);
}

export function _page(path) {
  return pages.get(path);
}

export function run_program(words, given = new Uint8Array()) {
  const { status, output } = runs(words, given);
  return { returncode: status, stdout: output };
}

/** There is no library here that plays a script without the program. */
export function played() {
  return null;
}

/** Nor one that follows a script. */
export class Follower {
  forget() {}
  replies() {
    return null;
  }
  transcript() {
    return null;
  }
}

/** Nobody watches a bar here: who asked is told once it is done, and may end it before. */
export class Progress {
  step() {}
  close() {}
}
