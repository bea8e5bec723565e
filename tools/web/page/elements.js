// Makes elements. Texts are put in as texts, and never as markup.

/** Puts an element into another. */
export function put(parent, name, text, className) {
  const made = document.createElement(name);
  if (text !== undefined) made.textContent = text;
  if (className) made.className = className;
  parent.append(made);
  return made;
}

const SVG = "http://www.w3.org/2000/svg";

/** An element of the lab's drawing, which comes as its name, its attributes and what stands in it. */
export function drawn(part) {
  if (typeof part === "string") return document.createTextNode(part);
  const [name, attributes, inside] = part, made = document.createElementNS(SVG, name);
  for (const [attribute, value] of attributes) made.setAttribute(attribute, String(value));
  made.append(...inside.map(drawn));
  return made;
}

/** Sets an attribute, where it isn't so already. */
export function change(part, name, value) {
  if (part.getAttribute(name) !== String(value)) part.setAttribute(name, String(value));
}

/** An SVG grows by so much at once. */
const ROOM = 4000;

/** An SVG whose parts change: what stays as it is isn't made anew. */
export class Sheet {
  constructor(parent) {
    this.svg = parent.appendChild(drawn(["svg", [["class", "run"], ["aria-hidden", "true"]], []]));
    this.known = new Map();
  }

  /** Puts in these parts, in their order. Each is an element as JSON. */
  show(parts) {
    const before = this.known;
    this.known = new Map();
    const nodes = parts.map((part) => {
      const node = before.get(part)?.shift() ?? drawn(JSON.parse(part));
      this.known.set(part, [...(this.known.get(part) ?? []), node]);
      return node;
    });
    // First, since each of them would have all that follow it moved.
    for (const rest of before.values()) for (const node of rest) node.remove();
    let at = this.svg.firstChild;
    for (const node of nodes) {
      if (node === at) at = at.nextSibling;
      else this.svg.insertBefore(node, at);
    }
  }

  /** Shows what is right of `left`. The SVG is higher than that: where its size changes, a browser lays out all of its texts anew. */
  size(left, width, height) {
    change(this.svg, "width", width);
    change(this.svg, "height", Math.ceil(height / ROOM) * ROOM);
    this.svg.style.marginLeft = `${-left}px`;
    Object.assign(this.svg.parentElement.style, { width: `${width - left}px`, height: `${height}px` });
  }
}
