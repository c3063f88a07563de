// Makes elements of the page. Texts become text nodes only; nothing is ever parsed as HTML. Characters that deceive
// become escapes, which are marked.

import { deceives, pieces, visible } from "./visible.js";

const SVG = "http://www.w3.org/2000/svg";
const SHOWN = ["aria-label", "title", "placeholder"]; // attributes that are seen or read aloud

/** Sets the attributes of an element: a function is a listener, `true` an empty attribute, `false` or null none. */
function dress(element, attributes) {
  for (const [name, value] of Object.entries(attributes)) {
    if (typeof value === "function") {
      element.addEventListener(name, value);
    } else if (value !== false && value !== null && value !== undefined) {
      const text = value === true ? "" : String(value);
      element.setAttribute(name, SHOWN.includes(name) ? visible(text) : text);
    }
  }
}

/** The nodes of a text: escapes are marked, but in a picture. */
function nodesOf(text, element) {
  const keepLines = element.tagName === "PRE" || element.tagName === "STYLE";
  if (!deceives(text)) {
    return [document.createTextNode(text)];
  }
  if (element.namespaceURI === SVG || element.tagName === "OPTION") {
    return [document.createTextNode(visible(text))];
  }
  return pieces(text, keepLines).map((piece) => {
    const node = document.createTextNode(piece.text);
    if (!piece.isEscape) {
      return node;
    }
    const mark = document.createElement("span");
    mark.className = "escape";
    mark.append(node);
    return mark;
  });
}

/** Appends children: nodes as they are, lists in their order, all else as text. */
function append(element, children) {
  for (const child of children.flat(Infinity)) {
    if (child !== null && child !== undefined && child !== false) {
      element.append(...(child instanceof Node ? [child] : nodesOf(String(child), element)));
    }
  }
  return element;
}

/** Makes an element with attributes and children. */
export function make(tag, attributes = {}, ...children) {
  const element = document.createElement(tag);
  dress(element, attributes);
  return append(element, children);
}

/** Makes an element of a picture. */
export function draw(tag, attributes = {}, ...children) {
  const element = document.createElementNS(SVG, tag);
  dress(element, attributes);
  return append(element, children);
}

/** Replaces the children of a node. The focus stays on the element with the same id. */
export function fill(node, ...children) {
  const id = node.contains(document.activeElement) ? document.activeElement.id : "";
  node.replaceChildren();
  append(node, children);
  if (id) {
    document.getElementById(id)?.focus({ preventScroll: true });
  }
}

/** Keeps a value in a storage of the browser; a browser that keeps nothing goes on without. */
export function keepSafely(storage, name, value) {
  try {
    storage.setItem(name, typeof value === "string" ? value : JSON.stringify(value));
  } catch {
    // a full storage, or one that is turned off
  }
}

/** Shows or hides a node. */
export function show(node, shown) {
  node.hidden = !shown;
}

/** Makes a button. */
export function button(id, text, click, kind = "") {
  return make("button", { type: "button", id, class: kind, click }, text);
}

/** Makes a card: a section with a heading of level 2. */
export function card(id, title, ...children) {
  return make("section", { class: "card", id, "aria-labelledby": `${id}-title` },
    make("h2", { id: `${id}-title` }, title), ...children);
}

/** Makes a list of words in which each row has a term and its description. */
export function pairs(rows) {
  return make("dl", {}, rows.map(([term, ...told]) => [make("dt", {}, term), make("dd", {}, ...told)]));
}

/** Returns a count with its noun. */
export function count(number, one, many = `${one}s`) {
  return `${number} ${number === 1 ? one : many}`;
}
