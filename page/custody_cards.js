// Cards of custody: the two safes, the table and what is loose in a facility, with the acts on them. They stand in the
// view of custody and beside the script.

import { act, actNow } from "./act.js";
import { clockOf, moment, now } from "./clock.js";
import { card, fill, make, show } from "./dom.js";
import { form, offer, toggles } from "./forms.js";
import { pressButton, rest } from "./press.js";
import { isTrained } from "./staff.js";
import { ceremony, inRoom, person, state } from "./state.js";

/** The facility that is shown: that of the ceremony. */
export function facility() {
  return ceremony()?.facility ?? "EAST";
}

/** Whether the ceremony is open. */
export function isOpenNow() {
  return ceremony()?.state === "open";
}

/** Whether a safe is open. */
function isOpen(safe) {
  return state.custody.safes[`${safe} ${facility()}`] === "open";
}

/** A need with whether it is met, in words. */
function need(text, met) {
  return make("li", { class: met ? "met" : "unmet" }, `${text}: ${met ? "yes" : "no"}`);
}

/** The need of every act on items and bags. */
function administrator() {
  const found = inRoom().some((stay) => isTrained(person(stay.who), "CA", state.placesDay));
  return need("a CA in the room", found);
}

/** What a bag in a store needs to be moved: the safe open, and the holder of the box's place in the room. */
function needsOf(box) {
  const found = [administrator(), need(box ? "safe 2 open" : "safe 1 open", isOpen(box ? 2 : 1))];
  const place = box ? state.known.boxes[facility()]?.[box] : null;
  if (place) {
    const who = state.places[place];
    found.push(need(`the holder of ${place}${who ? ` (${who})` : ""} in the room`,
      inRoom().some((stay) => stay.who === who)));
  }
  return make("ul", { class: "needs", "aria-label": "What it needs" }, found);
}

/** The items of a bag, as a line. */
function itemsOf(bag) {
  return make("span", { class: "items" }, bag.items.length > 0 ? bag.items.join(", ") : "no items");
}

/** A bag that is in a store, with the button that takes it out. */
function storedBag(bag, box) {
  const take = pressButton(`take-${bag.serial}`, `Take ${bag.serial}`, () =>
    actNow(`bags/${bag.serial}/take`, {}, `Take bag ${bag.serial} to the table`));
  return make("li", { class: "bag", id: `bag-${bag.serial}` }, make("strong", {}, bag.serial), itemsOf(bag),
    isOpenNow() ? [take, needsOf(box)] : null);
}

/** The boxes of safe 2. */
function boxes() {
  return Object.keys(state.known.boxes[facility()] ?? {}).sort((one, other) => one - other);
}

/** A box of safe 2 with its bags. */
function boxNode(box, bags) {
  const place = state.known.boxes[facility()][box];
  const found = bags.filter((bag) => bag.spot === `box ${box} ${facility()}`);
  return make("section", { class: "box", "aria-label": `Box ${box}` },
    make("h3", {}, `Box ${box}`, make("span", { class: "hint" }, ` ${place} (${state.places[place] ?? "no holder"})`)),
    found.length > 0 ? make("ul", { class: "bags" }, found.map((bag) => storedBag(bag, box)))
      : make("p", { class: "hint" }, "empty"));
}

/** What is in a safe. */
function contents(safe) {
  const bags = state.custody.bags.filter((bag) => bag.spot.endsWith(facility()));
  if (safe === 2) {
    return boxes().map((box) => boxNode(box, bags));
  }
  const own = bags.filter((bag) => bag.spot.startsWith("safe 1"));
  return own.length > 0 ? make("ul", { class: "bags" }, own.map((bag) => storedBag(bag, null)))
    : make("p", { class: "hint" }, "empty");
}

/** The people in the room as choices for a safe, those first who may open and shut it. */
function openers(role) {
  return inRoom().map(({ who }) => {
    const fit = isTrained(person(who), role, state.placesDay);
    return { who, fit, text: fit ? `${who}, ${role}` : `${who}, not trained as ${role}` };
  }).sort((one, other) => other.fit - one.fit).map(({ who, text }) => [who, text]);
}

/** Opens a safe that is shut, or shuts it. Then the focus is on what it is now. */
async function turn(safe, by, told) {
  const open = !isOpen(safe);
  const says = `${open ? "Open" : "Shut"} safe ${safe} by ${by || "nobody"}`;
  const answer = await actNow(`safes/${safe}`, { open, by }, says);
  if (answer && !answer.refused) {
    told.focus();
  }
}

/** The card of a safe: its state, who opens or shuts it, and what is in it. If it is `brief`, a shut safe shows no
 *  bags. */
function safeCard(safe, role, words, brief = false) {
  const told = make("p", { class: "safe-state", id: `safe-${safe}-state`, tabindex: "-1" });
  const by = make("select", { id: `safe-${safe}-by` });
  const place = make("div", { class: "row act" });
  const acts = make("div", {}, make("div", { class: "row" },
    make("label", { for: `safe-${safe}-by` }, `By whom (needs ${role})`), by), place);
  const inside = make("div", { class: "inside" });
  const node = card(`safe-${safe}-card`, `Safe ${safe}`, words ? make("p", { class: "hint" }, words) : null, told, acts,
    inside);
  let shown = null;
  const update = () => {
    const open = isOpen(safe);
    fill(told, open ? "Open" : "Shut");
    node.classList.toggle("open", open);
    if (shown !== open) {
      if (shown !== null) {
        rest(); // it may be another desk that turned it
      }
      shown = open; // another act, another button
      place.replaceChildren(pressButton(`safe-${safe}-send`, `${open ? "Shut" : "Open"} safe ${safe}`,
        () => turn(safe, by.value, told)));
    }
    show(acts, isOpenNow());
    offer(by, openers(role));
    show(inside, open || !brief);
    fill(inside, contents(safe));
  };
  return { node, update };
}

/** The choice of a store: safe 1, or a box. */
function storeChoice(serial, onChange) {
  const to = make("select", { id: `to-${serial}`, change: onChange });
  offer(to, [["safe1", "safe 1"], ...boxes().map((box) => [box, `box ${box}`])]);
  return { nodes: [make("label", { for: `to-${serial}` }, `${serial} into`), to], value: () => to.value };
}

/** A bag on the table: cut it, or put it into a store. */
function tableBag(bag) {
  const needs = make("div", {});
  const drawNeeds = () => fill(needs, needsOf(store.value() === "safe1" ? null : store.value()));
  const store = storeChoice(bag.serial, drawNeeds);
  const place = () => (store.value() === "safe1" ? "safe 1" : `box ${store.value()}`);
  const put = pressButton(`put-${bag.serial}`, `Put ${bag.serial}`, () => actNow(`bags/${bag.serial}/put`,
    { to: store.value() }, `Put bag ${bag.serial} into ${place()}`));
  const cut = pressButton(`cut-${bag.serial}`, `Cut ${bag.serial} open`, () => actNow(`bags/${bag.serial}/cut`, {},
    `Cut bag ${bag.serial}`));
  drawNeeds();
  return make("li", { class: "bag", id: `bag-${bag.serial}` }, make("strong", {}, bag.serial), itemsOf(bag),
    isOpenNow() ? [make("div", { class: "row" }, store.nodes, put, cut), needs] : null);
}

/** The card of the table, where bags are cut and put away. */
function tableCard() {
  const bags = make("ul", { class: "bags", id: "table-bags" });
  const node = card("table", "Table", make("p", { class: "hint" }, "Bags that are out of the safes."), bags);
  const chosen = {};
  const update = () => {
    bags.querySelectorAll("select").forEach((one) => { chosen[one.id] = one.value; });
    const found = state.custody.bags.filter((bag) => bag.spot === `table ${facility()}`);
    fill(bags, found.length > 0 ? found.map(tableBag) : make("li", { class: "hint" }, "no bag"));
    bags.querySelectorAll("select").forEach((one) => {
      if (one.id in chosen && chosen[one.id] !== one.value) {
        one.value = chosen[one.id];
        one.dispatchEvent(new Event("change"));
      }
    });
  };
  return { node, update };
}

/** The form that seals loose items into a bag. */
function sealForm() {
  return form({
    id: "seal", text: "Seal into a bag", of: `-${state.number}`,
    fields: [
      { name: "items", label: "Items, with blanks between them", capitals: true, wide: true,
        read: (text) => text.split(/[\s,;]+/).filter(Boolean) },
      { name: "serial", label: "Serial of the new bag", capitals: true, example: "BB51184287" },
    ],
    send: ({ items, serial }) => actNow(`bags/${serial}/seal`, { items }, `Seal ${items.join(", ")} into ${serial}`),
  });
}

/** The form that adds an item. */
function addForm() {
  return form({
    id: "item-new", text: "Add the item", kind: "", of: `-${state.number}`,
    fields: [{ name: "item", label: "Code of a new item", capitals: true, example: "HSM4" }],
    send: ({ item }) => act({
      path: "/items", members: { ceremony: state.number, item, at: moment() }, ceremony: state.number,
      says: `Add item ${item} at ${clockOf(moment(), now().slice(0, 10))}`,
    }),
  });
}

/** The card of loose items: seal them into a bag, and add one. */
function looseCard() {
  const [seal, add] = [sealForm(), addForm()];
  const list = make("div", { class: "toggles", role: "group", "aria-label": "Loose items" });
  const draw = () => {
    const found = state.custody.loose[facility()] ?? [];
    fill(list, found.length > 0 ? toggles("item", seal.inputs.items, found, (item) => item)
      : make("p", { class: "hint" }, "no loose item"));
  };
  seal.inputs.items.addEventListener("input", draw);
  seal.node.prepend(make("div", { class: "wide" }, list));
  const node = card("loose", "Loose items", seal.node, add.node);
  const update = () => {
    draw();
    show(add.node, isOpenNow());
    show(seal.node.lastChild, isOpenNow());
  };
  return { node, update };
}

/** The four cards of a facility. */
export function custodyCards(brief = false) {
  return [safeCard(1, "SSC1", brief ? "" : "Equipment.", brief),
    safeCard(2, "SSC2", brief ? "" : "Credentials, in boxes.", brief), tableCard(), looseCard()];
}
