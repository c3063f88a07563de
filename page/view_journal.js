// The journal: each accepted command with its number, the newest first.

import { button, card, count, fill, make, show } from "./dom.js";
import { lineOf } from "./journal.js";
import { ceremonyOf } from "./paths.js";
import { isAway, state } from "./state.js";

const MORE = 200;

/** A line of the journal. */
function row({ number, when, sentence }) {
  return make("li", { class: "line journal" }, make("strong", {}, number), make("time", {}, when),
    make("span", { class: "grow" }, sentence));
}

/** The numbers of the commands that match, the newest first: of the chosen ceremony only, or with a text. */
function matching(only, text) {
  const found = [];
  const word = text.trim().toLowerCase();
  for (let number = state.known.commands.length; number > 0; number -= 1) {
    if ((!only || ceremonyOf(state.known.commands[number - 1]) === state.number)
      && (word === "" || lineOf(state.known, number).sentence.toLowerCase().includes(word))) {
      found.push(number);
    }
  }
  return found;
}

/** Makes the view. */
export function journalView() {
  const only = make("input", { type: "checkbox", id: "journal-only", change: () => update() });
  const find = make("input", { type: "search", id: "find-journal", autocomplete: "off", input: () => update() });
  const told = make("p", { class: "hint", id: "journal-told" });
  const passed = make("p", { class: "hint" }, "A passed step was not carried out.");
  const list = make("ul", { class: "lines", id: "journal" });
  let shown = MORE;
  const more = button("journal-more", "Show more", () => {
    shown += MORE;
    update();
  }, "quiet");
  const tick = make("div", { class: "tick" }, only, make("label", { for: "journal-only" },
    state.number === null ? "Only the chosen ceremony" : `Only ceremony ${state.number}`));
  show(tick, state.number !== null);
  const node = make("div", {}, make("h1", {}, "Journal"), card("journal-card", "What was entered", tick,
    make("div", { class: "field" }, make("label", { for: "find-journal" }, "Find in the sentences"), find), told, passed,
    list, more));
  const update = () => {
    const found = matching(only.checked, find.value);
    fill(told, isAway() && !state.isWhole ? "Not known: the register did not answer yet."
      : `${count(found.length, "command")}, the newest first.`);
    fill(list, found.slice(0, shown).map((number) => row(lineOf(state.known, number))));
    show(more, found.length > shown);
  };
  return { node, update };
}
