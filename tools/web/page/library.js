// The cookbook's questions and the examples, each with its text beside.
import { put } from "./elements.js";

export class Library {
  constructor(scripts, open) {
    Object.assign(this, { scripts, chosen: scripts[0] });
    this.dialog = document.getElementById("questions");
    this.text = document.getElementById("text-of");
    this.fill();
    document.getElementById("library").addEventListener("click", () => {
      this.dialog.showModal();
      this.dialog.querySelector("[aria-pressed=true]").focus();
    });
    this.dialog.addEventListener("close", () => {
      if (this.dialog.returnValue === "take") open(this.chosen);
      this.dialog.returnValue = "";
    });
  }

  fill() {
    const list = document.getElementById("list");
    let group = null;
    for (const script of this.scripts) {
      if (script.group !== group) put(list, "li", script.group, "group");
      group = script.group;
      const button = put(put(list, "li"), "button", script.title);
      button.type = "button";
      button.addEventListener("click", () => this.show(script, button));
    }
    this.show(this.chosen, list.querySelector("button"));
  }

  show(script, button) {
    this.chosen = script;
    for (const one of this.dialog.querySelectorAll("#list button")) one.setAttribute("aria-pressed", String(one === button));
    this.text.replaceChildren();
    put(this.text, "h3", script.title);
    this.tell(script.told);
    put(this.text, "pre", script.text);
    this.text.scrollTop = 0;
  }

  /** Puts in paragraphs. Those with a dash in front are points of a list. */
  tell(paragraphs) {
    let list = null;
    for (const paragraph of paragraphs) {
      const isPoint = paragraph.startsWith("- ");
      list = isPoint ? (list ?? put(this.text, "ul")) : null;
      put(list ?? this.text, isPoint ? "li" : "p", isPoint ? paragraph.slice(2) : paragraph);
    }
  }
}
