// Buttons that write the next line, with what each would do.
import { put } from "./elements.js";

export class Next {
  /** `write` puts a line into the script, and `tries` tells what one would do. */
  constructor(write, tries) {
    Object.assign(this, { write, tries });
    this.box = document.getElementById("next");
    this.preview = document.getElementById("preview");
    this.box.addEventListener("pointerover", (event) => this.look(event));
    this.box.addEventListener("focusin", (event) => this.look(event));
    this.box.addEventListener("pointerleave", () => this.clear());
    this.box.addEventListener("click", (event) => {
      const line = event.target.dataset?.writes;
      if (line !== undefined) this.write(line);
    });
  }

  show(choices) {
    const focused = document.activeElement?.dataset?.writes;
    this.clear();
    this.box.replaceChildren();
    const groups = new Map();
    for (const choice of choices) groups.set(choice.about, [...(groups.get(choice.about) ?? []), choice]);
    for (const [about, own] of groups) this.group(about, own);
    const again = [...this.box.querySelectorAll("button")].find((button) => button.dataset.writes === focused);
    if (focused !== undefined) (again ?? this.box.querySelector("button"))?.focus();
  }

  group(about, choices) {
    const group = put(this.box, "fieldset");
    put(group, "legend", { messages: "on the way", set: "the set" }[about] ?? about);
    for (const { line, told } of choices) {
      const button = put(group, "button", told, told.startsWith("lose ") ? "lose" : "");
      button.type = "button";
      button.dataset.writes = line;
    }
  }

  async look({ target }) {
    const line = target.dataset?.writes;
    if (line === undefined || line === this.looking) return;
    this.looking = line;
    const told = await this.tries(line);
    if (this.looking === line && told) this.preview.textContent = `${line} → ${told.join("; ")}`;
  }

  clear() {
    this.looking = null;
    this.preview.textContent = "";
  }
}
