// Beginning: people with their trainings from a list, boxes, and the stock that is there. What will be sent is shown
// first; it is sent command by command, and stops at the first that is refused.

import { act } from "./act.js";
import { boxesBatch, peopleBatch, stockBatch, stockNeeds } from "./batches.js";
import { moment } from "./clock.js";
import { card, count, fill, make, show } from "./dom.js";
import { fileField, form } from "./forms.js";
import { isTrained } from "./staff.js";
import { ceremony, inRoomAtMoment, person, state } from "./state.js";

const FACILITIES = [["EAST", "EAST"], ["WEST", "WEST"]];
const MOST_SHOWN = 400;

/** Sends commands one after the other. Returns the answer to the last one that was sent. */
async function sendAll(commands, told) {
  let answer = null;
  for (const [place, { path, members, says, isAct }] of commands.entries()) {
    fill(told, `${place} of ${count(commands.length, "command")} sent.`);
    const now = isAct ? { ...members, at: moment() } : members;
    answer = await act({ path, members: now, says, ...(isAct ? { ceremony: state.number } : {}) });
    if (!answer || answer.refused) {
      fill(told, `Stopped at command ${place + 1} of ${commands.length}: ${says}. What is not sent is below.`);
      return answer;
    }
  }
  fill(told, `${count(commands.length, "command")} sent.`);
  return answer;
}

/** A card with a list that is pasted or chosen, what it will send, and the button that sends it. */
function batchCard({ id, title, hint, example, batch, fields = [], more = null }) {
  const told = make("p", { id: `${id}-told`, role: "status" });
  const list = make("ol", { class: "guide", id: `${id}-lines` });
  const faults = make("ul", { class: "wrong", id: `${id}-faults` });
  const values = () => Object.fromEntries(Object.entries(made.inputs).map(([name, input]) => [name, input.value]));
  const made = form({
    id, text: "Send all",
    fields: [...fields, { name: "list", label: "The list, as comma-separated text", kind: "long", rows: 6, wide: true,
      hint: `Such as ${example}`, keep: true }],
    send: async (given) => {
      const found = batch(given);
      return found.faults.length > 0 || found.commands.length === 0 ? null : sendAll(found.commands, told);
    },
  });
  const file = fileField(`${id}-file`, "Or choose a file", (text) => {
    made.inputs.list.value = text;
    made.inputs.list.dispatchEvent(new Event("input"));
  });
  made.node.insertBefore(file, made.node.lastChild);
  const update = () => {
    const { commands, faults: wrong } = state.isWhole ? batch(values()) : { commands: [], faults: [] };
    fill(faults, wrong.map((one) => make("li", {}, one)));
    fill(list, commands.slice(0, MOST_SHOWN).map(({ says }) => make("li", {}, says)));
    made.go.textContent = `Send ${count(commands.length, "command")}`;
    show(made.go, commands.length > 0 && wrong.length === 0);
    show(nothing, made.inputs.list.value.trim() !== "" && commands.length === 0 && wrong.length === 0);
    fill(nothing, state.isWhole ? "All of it is in the register." : "Not known: the register did not answer yet.");
    more?.update(values());
  };
  const nothing = make("p", { id: `${id}-nothing` });
  Object.values(made.inputs).forEach((input) => ["input", "change"].forEach((name) =>
    input.addEventListener(name, update)));
  const node = card(`${id}-card`, title, make("p", { class: "hint" }, hint), more?.node, made.node, faults, told,
    make("h3", {}, "What will be sent"), nothing, list);
  return { node, update };
}

/** The needs of stock, each with whether it is met. */
function needsList() {
  const list = make("ul", { class: "guide", id: "stock-needs" });
  const isTrainedNow = (who, role) => isTrained(person(who), role, state.placesDay);
  return { node: list, update: ({ list: text }) => {
    const found = stockNeeds(state.known, ceremony(), inRoomAtMoment(), isTrainedNow, state.places, text);
    const told = (isMet) => (!state.isWhole ? "not known" : isMet ? "yes" : "no");
    fill(list, found.map(([need, isMet]) => make("li", { class: isMet ? "met" : "unmet" }, `${need}: ${told(isMet)}`)));
  } };
}

/** Makes the view. */
export function beginningView() {
  const people = batchCard({
    id: "people-list", title: "People and trainings",
    hint: "Initials, name, role or place, first day, last day. A person with two roles has two rows; a visitor has no "
      + "role; a place such as CO-EAST-1 has no last day.",
    example: "AA,Ann Abel,CA,2026-01-01,2026-12-31", batch: ({ list }) => peopleBatch(state.known, list),
  });
  const boxes = batchCard({
    id: "boxes-list", title: "Boxes of safe 2", hint: "The number of the box, and the place that it belongs to.",
    example: "101,CO-EAST-1", batch: ({ list, facility }) => boxesBatch(state.known, list, facility),
    fields: [{ name: "facility", label: "Facility", kind: "choice", options: FACILITIES, keep: true,
      remember: "facility" }],
  });
  const stock = batchCard({
    id: "stock-list", title: "Bags that are there already",
    hint: "The serial, the items with blanks between them, and the store: safe1, or the number of a box. Bags are "
      + "entered in an open ceremony, such as one that only takes stock.",
    example: "BB51184287,HSM4 CARD1,safe1", more: needsList(),
    batch: ({ list }) => (ceremony() ? stockBatch(state.known, list, ceremony()) : { commands: [], faults: [] }),
  });
  const node = make("div", {}, make("h1", {}, "Beginning"), people.node, boxes.node, stock.node);
  const update = () => [people, boxes, stock].forEach((one) => one.update());
  return { node, update };
}
