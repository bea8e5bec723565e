"use strict";
(() => {
  const data = JSON.parse(document.getElementById("data").textContent);
  const drawing = document.getElementById("drawing");
  const body = document.getElementById("body");
  const told = document.getElementById("told");
  const scroller = document.querySelector(".scroller");
  const rests = new Map([...document.querySelectorAll(".rest")].map((rest) => [Number(rest.dataset.row), rest]));
  const places = [...rests.keys()];
  let chosen = null;

  function put(parent, name, text, className) {
    const made = document.createElement(name);
    if (text !== undefined) made.textContent = text;
    if (className) made.className = className;
    parent.append(made);
    return made;
  }

  function putStates(row) {
    put(told, "h2", "The nodes after it");
    const table = put(put(told, "div", undefined, "states"), "table");
    const head = put(table, "tr");
    for (const name of ["node", "role", "term", "last", "durable", "applied", "commit", "config"]) put(head, "th", name);
    row.states.forEach((state, node) => {
      const line = put(table, "tr", undefined, node === row.node ? "touched" : "");
      for (const value of ["n" + node, ...state]) put(line, "td", value);
    });
  }

  function putDocuments(row) {
    if (row.documents === null) {
      if (data.many) put(told, "p", "There are too many documents to be listed here.", "hint");
      return;
    }
    put(told, "h2", "Documents at n" + row.node + ", at local");
    put(told, "pre", data.documents[row.documents].join("\n") || "(none)");
  }

  function show(place) {
    const row = data.rows[place];
    told.replaceChildren();
    put(told, "h2", "Line " + row.line);
    put(told, "pre", row.text);
    put(told, "h2", "Reply");
    put(told, "pre", [row.reply, ...row.more.map((line) => "  " + line)].join("\n"), row.bad ? "bad" : "");
    if (row.verdicts.length) {
      put(told, "h2", "Verdicts");
      put(told, "pre", row.verdicts.join("\n"), "bad");
    }
    if (row.change) {
      put(told, "h2", "What changed");
      put(told, "pre", row.change);
    }
    putDocuments(row);
    putStates(row);
    told.scrollTop = 0;
  }

  function choose(place) {
    if (chosen !== null) rests.get(chosen).classList.remove("chosen");
    chosen = place;
    told.hidden = place === null;
    if (place === null) return;
    rests.get(place).classList.add("chosen");
    show(place);
    const room = scroller.clientHeight, top = place * data.row + 34;
    if (top < scroller.scrollTop + 70) scroller.scrollTop = top - 70;
    if (top > scroller.scrollTop + room - 60) scroller.scrollTop = top - room + 60;
  }

  function step(by) {
    if (!places.length) return;
    const at = places.indexOf(chosen);
    const next = at < 0 ? (by > 0 ? 0 : places.length - 1) : at + by;
    choose(places[Math.max(0, Math.min(places.length - 1, next))]);
  }

  body.addEventListener("click", (event) => {
    const place = event.target.dataset.row;
    if (place !== undefined) choose(Number(place) === chosen ? null : Number(place));
  });
  const flagged = places.filter((place) => data.rows[place].verdicts.length);
  for (const button of document.querySelectorAll("button.verdict"))
    button.addEventListener("click", () => choose(Number(button.dataset.row)));
  document.addEventListener("keydown", (event) => {
    if (event.ctrlKey || event.metaKey || event.altKey) return;
    const steps = { ArrowDown: 1, j: 1, ArrowUp: -1, k: -1, PageDown: 20, PageUp: -20, Home: -data.rows.length, End: data.rows.length };
    if (event.key === "Escape") choose(null);
    else if (event.key === "v" && flagged.length) choose(flagged.find((place) => place > (chosen ?? -1)) ?? flagged[0]);
    else if (event.key in steps) step(steps[event.key]);
    else return;
    event.preventDefault();
  });

  for (const box of document.querySelectorAll("[data-hides]")) {
    box.addEventListener("change", () => {
      for (const part of [drawing, document.querySelector(".top"), document.querySelector(".sheets")])
        part.classList.toggle("no-" + box.dataset.hides, !box.checked);
    });
  }

  // Without the script's text the picture begins at its lanes, so that it fits a narrow window.
  const text = document.getElementById("text");
  function layOut() {
    const left = text.checked ? 0 : data.gutter;
    for (const svg of [body, document.querySelector(".top svg")]) {
      const [, top, , height] = svg.getAttribute("viewBox").split(" ");
      svg.setAttribute("viewBox", [left, top, data.width - left, height].join(" "));
      svg.setAttribute("width", data.width - left);
    }
    for (const caption of drawing.querySelectorAll(".caption")) caption.setAttribute("x", left + 8);
  }
  text.checked = window.innerWidth > 700;
  text.addEventListener("change", layOut);
  // Paper has room for the text.
  window.addEventListener("beforeprint", () => { text.checked = true; layOut(); });
  layOut();
})();
