// One press, one act. A key that is held down counts once. After an accepted act no button takes a press until the key
// or the pointer was let go and a second has passed: what stands under a second press may be another act by then. So it
// is if another desk's act changes a button, and if a question opens under a press.

import { make } from "./dom.js";

const REST = 1000;
const SYNTHETIC = 100; // milliseconds: a click later than this after the last press came from no key and no pointer
const held = new Set();
let began = -Infinity;
let ended = -Infinity;
let armed = -Infinity;
let isResting = false;

/** Notes a press of a key or a pointer. */
function begin(name) {
  held.add(name);
  began = performance.now();
}

/** Notes its end. */
function end(name) {
  held.delete(name);
  ended = performance.now();
}

/** Whether a key presses buttons. */
function presses(event) {
  return event.key === "Enter" || (event.key === " " && event.target.tagName === "BUTTON");
}

if (globalThis.document) {
  addEventListener("pointerdown", () => begin("pointer"), true);
  ["pointerup", "pointercancel"].forEach((name) => addEventListener(name, () => end("pointer"), true));
  addEventListener("keyup", (event) => held.has(event.code) && end(event.code), true);
  addEventListener("blur", () => { held.clear(); });
  addEventListener("keydown", (event) => {
    if (presses(event) && !event.repeat) {
      begin(event.code);
    } else if (presses(event) && event.target.tagName !== "TEXTAREA") {
      event.preventDefault();
      event.stopImmediatePropagation();
    }
  }, true);
}

/** Marks the buttons of acts as resting, or as ready. */
function markAll() {
  document.querySelectorAll("[data-press]").forEach((node) => {
    node.toggleAttribute("data-resting", isResting);
  });
}

/** Lets all buttons of acts rest. */
export function rest() {
  const wake = () => {
    if (held.size > 0) {
      setTimeout(wake, 20);
      return;
    }
    isResting = false;
    armed = performance.now();
    markAll();
  };
  if (!isResting) {
    isResting = true;
    setTimeout(wake, REST);
  }
  markAll();
}

/** Whether the buttons of acts rest. */
export function rests() {
  return isResting;
}

/** Whether a click is a new press, and not the rest of one from before. */
function isNew() {
  const byHand = held.size > 0 || performance.now() - ended < SYNTHETIC;
  return !isResting && (!byHand || began >= armed);
}

/** Makes the button of an act. It takes a press only if it does not rest. If it sends no command, it stays on while the
 *  register is away. */
export function pressButton(id, text, act, kind = "", isCommand = true) {
  const click = () => {
    if (isNew()) {
      act();
    }
  };
  return make("button", {
    type: "button", id, class: kind, click, "data-press": true, "data-command": isCommand, "data-resting": isResting,
  }, text);
}

/** Turns the buttons of commands off while the register is away, or on. */
export function switchButtons(isOff) {
  document.querySelectorAll("[data-command]").forEach((node) => { node.disabled = isOff; });
}
