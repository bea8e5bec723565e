// What is told of the row that is chosen: its lines with their replies, the nodes, and one node's documents.
import { put } from "./elements.js";

const NAMES = ["role", "term", "vote", "last", "durable", "applied", "commit", "config", "rollback"];

export class Panel {
  /** `pick` is told the node that is chosen in the table, and `goTo` the line of a verdict. */
  constructor(pick, goTo) {
    Object.assign(this, { pick, goTo });
    this.box = document.getElementById("told");
  }

  /** `lines` are the plain lines of the script's line, and `at` is the chosen node's state and documents. */
  show({ line, lines, row, node, at, verdicts, told }) {
    this.box.replaceChildren();
    if (lines.length) this.putLines(line, lines);
    if (verdicts.length) this.putVerdicts(verdicts, line);
    if (row?.change) this.putTexts("What changed", [row.change]);
    if (row) this.putStates(row, node);
    if (at) this.putDocuments(node, at);
    if (told.length) this.putTexts("The whole run", told);
  }

  putTexts(head, texts, kind) {
    put(this.box, "h2", head);
    put(this.box, "pre", texts.join("\n"), kind);
  }

  putVerdicts(verdicts, line) {
    put(this.box, "h2", "Verdicts");
    const list = put(this.box, "ul", undefined, "verdicts");
    for (const { name, told, lines } of verdicts) {
      const item = put(list, "li", undefined, lines.includes(line) ? "now" : ""), button = put(item, "button", name);
      button.type = "button";
      button.addEventListener("click", () => this.goTo(lines[lines.length - 1]));
      const all = [...new Set(lines)];
      item.append(` ${told}${all.length ? ` (${all.length > 1 ? "lines" : "line"} ${all.join(", ")})` : ""}`);
    }
  }

  putLines(line, lines) {
    put(this.box, "h2", `Line ${line}`);
    const list = put(this.box, "div", undefined, "lines");
    for (const { text, reply, bad, more } of lines) {
      put(list, "code", text);
      put(list, "code", [reply, ...more.map((one) => `  ${one}`)].join("\n"), bad ? "bad" : "");
    }
  }

  putStates(row, chosen) {
    put(this.box, "h2", "The nodes after it");
    const table = put(put(this.box, "div", undefined, "wide"), "table");
    const head = put(put(table, "thead"), "tr"), body = put(table, "tbody");
    for (const name of ["node", ...NAMES]) put(head, "th", name);
    row.states.forEach((state, node) => {
      const line = put(body, "tr", undefined, node === chosen ? "chosen" : "");
      const button = put(put(line, "td"), "button", `n${node}`);
      button.type = "button";
      button.addEventListener("click", () => this.pick(node));
      for (const value of state) put(line, "td", value);
    });
  }

  putDocuments(node, { local, majority }) {
    const said = (documents) => (documents === null ? ["(the node is down)"] : documents.length ? documents : ["(none)"]);
    this.putTexts(`Documents at n${node}, at local`, said(local));
    if (JSON.stringify(local) !== JSON.stringify(majority)) this.putTexts("At majority", said(majority));
  }
}
