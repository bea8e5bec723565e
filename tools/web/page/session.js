// The script as it stands, expanded line by line. What stays at its front isn't played anew.
import { CannotGoOn } from "./lab/macros.js";
import { LabError, ScriptFault, StoppedMacro } from "./lab/errors.js";
import { Expander, _check_first } from "./lab/expand.js";
import { Player } from "./lab/player.js";
import { play } from "./lab/program.js";
import { is_silent } from "./lab/script.js";
import { surprises } from "./lab/diagnose.js";
import { Transcript } from "./lab/transcript.js";
import { _explain_stop, explain_fault } from "./lab/words_explain.js";

/** What is wrong in a script: its line, and what is told of it. */
class Fault {
  constructor(line, told) {
    this.line = line;
    this.told = told;
  }
}

export class Session {
  constructor() {
    this.begin();
    /** What is wrong with the script, if anything is, and the plain lines that could be played. */
    this.fault = null;
    this.played = [];
    this.transcript = new Transcript();
  }

  begin() {
    this.player = new Player();
    this.expander = new Expander(this.player);
    /** The lines that were taken, before each how many plain ones there were, and what macros had left. */
    this.taken = [];
    this.marks = [];
    /** Of each plain line the line of the script that it came from. */
    this.source = [];
  }

  /** Takes the script with these lines. */
  update(lines) {
    this.lines = lines;
    this.fault = null;
    this.goBack(this.shared(lines));
    try {
      if (!this.taken.length) _check_first(lines);
      for (const line of lines.slice(this.taken.length)) this.take(line);
    } catch (fault) {
      this.fault = this.told(fault);
    }
    this.playAll();
  }

  shared(lines) {
    const place = this.taken.findIndex((line, at) => line !== lines[at]);
    return place < 0 ? this.taken.length : place;
  }

  goBack(count) {
    const first = this.taken.findIndex((line) => !is_silent(line));
    // The line that makes the set is the ground of all others.
    if (count <= first || first < 0) return this.begin();
    if (count < this.taken.length) {
      const [length, kept] = this.marks[count];
      this.player.lines.length = length;
      this.player.forget();
      this.expander.macros.restore(kept);
      for (const list of [this.taken, this.marks]) list.length = count;
      this.source.length = length;
    }
    return undefined;
  }

  take(line) {
    const number = this.taken.length + 1, length = this.player.lines.length, kept = this.expander.macros.kept();
    try {
      this.expander.take(line);
    } catch (fault) {
      this.stopAt(number, length, fault);
    }
    this.marks.push([length, kept]);
    this.taken.push(line);
    while (this.source.length < this.player.lines.length) this.source.push(number);
  }

  /** As `lab expand` has it, where a line can't be taken. */
  stopAt(number, length, fault) {
    const made = fault instanceof CannotGoOn ? fault.lines.slice(length) : [];
    this.player.lines.length = length;
    this.player.forget();
    if (fault instanceof ScriptFault)
      throw new ScriptFault(this.source[fault.line - 1] ?? number, fault.rule, fault.text, fault.line);
    if (fault instanceof CannotGoOn) {
      const source = [...this.source, ...made.map(() => number)];
      throw new StoppedMacro(fault.status, number, fault.sentence, [...this.player.lines, ...made], source);
    }
    if (!(fault instanceof LabError)) throw fault;
    throw Object.assign(new LabError(fault.status, fault.sentence), { line: number });
  }

  told(fault) {
    if (fault instanceof ScriptFault) return new Fault(this.lineOf(fault), explain_fault(this.lines, fault));
    if (fault instanceof StoppedMacro) return new Fault(fault.line, ownLines(_explain_stop(this.lines, fault), fault.line));
    if (fault instanceof LabError) return new Fault(fault.line ?? 1, [fault.sentence]);
    throw fault;
  }

  lineOf(fault) {
    return Math.max(1, Math.min(fault.line, this.lines.length));
  }

  /** Plays what was taken. Where a line of it is at fault, what stands before that line is played. */
  playAll() {
    let lines = [...this.player.lines];
    for (;;) {
      try {
        this.transcript = lines.some((line) => !is_silent(line)) ? play(lines) : new Transcript();
        this.played = lines;
        return;
      } catch (fault) {
        if (!(fault instanceof ScriptFault) || !lines.length) throw fault;
        const at = Math.min(fault.line, lines.length), origin = this.source[at - 1] ?? this.taken.length;
        const own = new ScriptFault(fault.line > lines.length ? this.lines.length + 1 : origin, fault.rule, fault.text, fault.line);
        if (this.fault === null || this.fault.line > origin) this.fault = this.told(own);
        lines = beforeBlock(lines.slice(0, at - 1), fault.line > lines.length);
      }
    }
  }

  /** What is no fault and may still not be what was meant, by the script's own lines. */
  surprises() {
    return [...surprises(this.played)].map(([number, told]) => [this.source[number - 1], told]);
  }
}

/** What is told of a macro that can't go on, without the run before it. */
function ownLines(told, line) {
  return told.filter((one) => Number(/^ *(\d+) +\d+  /.exec(one)?.[1] ?? line) === line);
}

/** The lines without a block at their end that isn't closed. */
function beforeBlock(lines, atEnd) {
  const open = lines.map((line) => line.replace(/\r$/, "")).findLastIndex((line) => line === "par" || line === "end");
  const isOpen = open >= 0 && lines[open].startsWith("par");
  return isOpen || atEnd ? lines.slice(0, isOpen ? open : lines.length) : lines;
}
