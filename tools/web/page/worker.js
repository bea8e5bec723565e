// Plays scripts beside the page, so that the page never waits.
import * as answers from "./answers.js";
import * as given from "./given.js";
import { runProgram } from "./program.js";
import { Session } from "./session.js";
import { split_lines } from "./lab/script.js";

const session = new Session();

const ASKED = {
  begin: ({ module, pages }) => {
    given.runBy((words, input) => runProgram(module, words, input));
    for (const [path, text] of pages) given.keepPage(path, text);
    return true;
  },
  script: ({ text }) => {
    session.update(split_lines(text));
    return answers.replies(session);
  },
  draw: ({ line }) => answers.draw(session, line),
  line: ({ line }) => answers.lineAt(session, line),
  node: ({ node, plain }) => answers.nodeAt(session, node, plain),
  next: ({ line }) => answers.next(session, line),
  try: ({ line, text }) => answers.tryLine(session, line, text),
  told: () => answers.told(session),
  plain: () => answers.plainScript(session),
  trace: () => answers.trace(session),
  svg: ({ title }) => answers.svg(session, title),
  check: ({ raw }) => answers.check(raw),
  explain: ({ said }) => answers.explain(said),
  // For tests: a run of the program by itself.
  run: ({ words, raw }) => runProgram(session.module, words, raw),
};

function answer({ data }) {
  try {
    if (data.kind === "begin") session.module = data.module;
    postMessage({ number: data.number, told: ASKED[data.kind](data) });
  } catch (fault) {
    postMessage({ number: data.number, fault: fault.sentence ?? `${fault.name}: ${fault.message}`, stack: fault.stack });
  }
}

addEventListener("message", answer);
