// The room: who is in, who comes in and goes out, and who fits which role.

import { actNow, openThings } from "./act.js";
import { clockOf } from "./clock.js";
import { button, card, count, fill, make, show } from "./dom.js";
import { form, toggles } from "./forms.js";
import { PLACES, ROLES, ROLE_NAMES, initialsOf, isTrained, standing } from "./staff.js";
import { inRoom, isAway, person, state } from "./state.js";

const MOST_SHOWN = 60;

/** A person in the room. */
function insideRow(stay) {
  return make("li", { class: "line" }, make("strong", {}, stay.who), make("span", { class: "grow" }, stay.name),
    make("span", {}, standing(person(stay.who), state.placesDay, state.places)),
    make("time", {}, `since ${clockOf(stay.since, state.script.day)}`));
}

/** The people who match a text: their initials begin with its last word, or their name has it. */
function matching(people, text) {
  const word = text.trim().toLowerCase();
  return people.filter(({ who, name }) => word === "" || who.toLowerCase().startsWith(word)
    || name.toLowerCase().includes(word));
}

/** The label of a toggle: initials, name and standing. */
function labelOf(who) {
  const one = person(who);
  return `${who} ${one.name} (${standing(one, state.placesDay, state.places)})`;
}

/** Lets people in or out. To let them out while custody is open is asked about. */
function send(way, who) {
  const open = way === "out" ? openThings() : [];
  const asks = open.length === 0 ? null : {
    title: "Let them out now?", lines: [`${who.join(", ")} would go out.`, ...open], yes: "Let them out",
    no: "Not yet",
  };
  return actNow("sheet", { way, who }, `${who.join(", ")}: ${way === "in" ? "come in" : "go out"}`, asks);
}

/** A form for one way, in or out: a field of initials, and a toggle for each person who may be meant. */
function wayForm(way, text, candidates) {
  const made = form({
    id: `way-${way}`, text, of: `-${state.number}`,
    fields: [{ name: "who", label: "Initials, with blanks between them", capitals: true, example: "AL CD", wide: true,
      read: initialsOf }],
    send: ({ who }) => send(way, who),
  });
  const filter = make("input", { type: "search", id: `find-${way}`, autocomplete: "off" });
  const list = make("div", { class: "toggles", role: "group", "aria-label": `People who may ${way === "in" ? "come in"
    : "go out"}` });
  const more = make("p", { class: "hint" });
  const draw = () => {
    const all = candidates();
    const found = matching(all, filter.value);
    fill(list, toggles(`toggle-${way}`, made.inputs.who, found.slice(0, MOST_SHOWN).map((one) => one.who), labelOf));
    fill(more, found.length > MOST_SHOWN ? `${found.length - MOST_SHOWN} more: type to find them.` : "");
    show(filterBox, all.length > 12);
  };
  const filterBox = make("div", { class: "field" }, make("label", { for: `find-${way}` }, "Find by name or initials"),
    filter);
  filter.addEventListener("input", draw);
  made.inputs.who.addEventListener("input", draw);
  const all = button(`all-${way}`, "Everybody who is in", () => {
    made.inputs.who.value = candidates().map((one) => one.who).join(" ");
    made.inputs.who.dispatchEvent(new Event("input"));
  }, "quiet");
  show(all, way === "out");
  made.node.insertBefore(make("div", { class: "wide" }, filterBox, list, more, all), made.node.lastChild);
  return { node: made.node, draw };
}

/** The initials of people, those in the room first and marked. */
function told(people, inside) {
  const here = people.filter((who) => inside.has(who));
  const away = people.filter((who) => !inside.has(who));
  return [
    make("span", { class: "here" }, here.length > 0 ? `in the room: ${here.join(", ")}` : "nobody in the room"),
    away.length > 0 ? make("span", { class: "hint" }, ` not in the room: ${away.slice(0, 12).join(", ")}`
      + `${away.length > 12 ? `, and ${away.length - 12} more` : ""}`) : null,
  ];
}

/** Who fits which role, and who holds which place. */
function fitting() {
  const inside = new Set(inRoom().map((stay) => stay.who));
  const rows = ROLES.map((role) => [role, ROLE_NAMES[role],
    state.people.filter((one) => isTrained(one, role, state.placesDay)).map((one) => one.who)]);
  const held = PLACES.filter((place) => state.places[place]
    && !(place.startsWith("CO-") && place.split("-")[1] !== state.script?.facility));
  held.forEach((place) => rows.push([place, ROLE_NAMES[place.split("-")[0]], [state.places[place]]]));
  return make("dl", { class: "roles" }, rows.map(([short, name, people]) => [
    make("dt", {}, make("strong", {}, short), ` ${name}`), make("dd", {}, told(people, inside))]));
}

/** How many people are in the room, if it is known. */
function numberText(here) {
  if (!state.isWhole) {
    return "Not known: the register did not answer yet.";
  }
  const told = here === 0 ? "Nobody is in the room." : `${count(here, "person", "people")} in the room. Nobody may be `
    + "alone in it.";
  const small = `${told[0].toLowerCase()}${told.slice(1)}`;
  return isAway() ? `Not known: the register does not answer. When it last did: ${small}` : told;
}

/** Makes the view. */
export function roomView() {
  const inside = make("ul", { class: "lines", id: "inside" });
  const number = make("p", { class: "facts", id: "inside-count" });
  const roles = make("div", { id: "roles" });
  const rolesTitle = make("p", { class: "hint" });
  const comeIn = wayForm("in", "They come in", () => {
    const here = new Set(inRoom().map((stay) => stay.who));
    return state.people.filter((one) => !here.has(one.who));
  });
  const goOut = wayForm("out", "They go out", () => inRoom().map((stay) => person(stay.who)));
  const forms = make("div", { class: "two" },
    card("come", "Come in", comeIn.node), card("leave", "Go out", goOut.node));
  const closed = make("p", { class: "facts" });
  const cards = [card("now", "In the room now", inside), card("fit", "Who fits which role", rolesTitle, roles)];
  const node = make("div", {}, make("h1", {}, "Room"), number, cards[0], forms, closed, cards[1]);
  const update = () => {
    const here = inRoom();
    show(forms, state.script?.state === "open");
    show(closed, Boolean(state.script) && state.script.state !== "open");
    fill(closed, state.script?.closed
      ? `The ceremony is closed since ${state.script.closed}: nobody comes in or goes out.`
      : "The ceremony is not open yet, so nobody comes in or goes out.");
    fill(number, numberText(here.length));
    cards.forEach((one) => show(one, state.isWhole));
    fill(inside, here.map(insideRow));
    comeIn.draw();
    goOut.draw();
    fill(rolesTitle, `On ${state.placesDay}.`);
    fill(roles, fitting());
  };
  return { node, update };
}
