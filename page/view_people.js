// People: who is in the register and trained for what; entering, training and withdrawing.

import { act } from "./act.js";
import { card, count, fill, make } from "./dom.js";
import { form, propose } from "./forms.js";
import { ROLES, ROLE_NAMES, placeOf } from "./staff.js";
import { state } from "./state.js";

const MOST_SHOWN = 2000;
const ROLE_OPTIONS = ROLES.map((role) => [role, `${role}, ${ROLE_NAMES[role]}`]);
const WHO = {
  name: "who", label: "Initials", capitals: true, example: "AA", list: true,
};
const ROLE = { name: "role", label: "Role", kind: "choice", options: ROLE_OPTIONS, keep: true };

/** A training in words. */
function training({ role, from, until, withdrawn }) {
  return make("span", { class: "training" }, make("b", {}, role), ` ${from} to ${until}`,
    withdrawn ? `, withdrawn from ${withdrawn}` : "");
}

/** A row of the list. */
function row(one) {
  const place = placeOf(one.who, state.places);
  return make("li", { class: "line" }, make("strong", {}, one.who), make("span", { class: "grow" }, one.name),
    make("span", { class: "trainings" }, one.roles.map(training), place ? make("span", {}, `holds ${place}`) : null,
      one.roles.length === 0 && !place ? make("span", { class: "hint" }, "visitor") : null));
}

/** The form that enters a person. */
function enterForm() {
  return form({
    id: "person", text: "Enter the person",
    fields: [
      { ...WHO, list: false, hint: "2 to 4 capital letters." },
      { name: "name", label: "Name", example: "Ann Abel" }],
    send: ({ who, name }) => act({ path: "/people", members: { who, name }, says: `Enter ${who}, ${name}` }),
  });
}

/** The form that trains a person. */
function trainForm() {
  return form({
    id: "training", text: "Enter the training",
    fields: [WHO, ROLE,
      { name: "from", label: "First day", example: "YYYY-MM-DD", keep: true },
      { name: "until", label: "Last day", example: "YYYY-MM-DD", keep: true }],
    send: ({ who, role, from, until }) => act({
      path: `/people/${who}/roles`, members: { role, from, until },
      says: `Train ${who} as ${role} from ${from} to ${until}`,
    }),
  });
}

/** The form that withdraws trainings. */
function withdrawForm() {
  return form({
    id: "withdrawal", text: "Withdraw", kind: "",
    fields: [WHO, ROLE, { name: "day", label: "First day without the role", example: "YYYY-MM-DD" }],
    send: ({ who, role, day }) => act({
      path: `/people/${who}/withdrawals`, members: { role, day }, says: `Withdraw ${role} of ${who} from ${day}`,
    }),
  });
}

/** Makes the view. */
export function peopleView() {
  const search = make("input", { type: "search", id: "find-people", autocomplete: "off" });
  const list = make("ul", { class: "lines", id: "people" });
  const number = make("p", { class: "hint", id: "people-count" });
  const forms = [enterForm(), trainForm(), withdrawForm()];
  const draw = () => {
    const word = search.value.trim().toLowerCase();
    const found = state.people.filter(({ who, name, roles }) => word === "" || who.toLowerCase().startsWith(word)
      || name.toLowerCase().includes(word) || roles.some(({ role }) => role.toLowerCase() === word));
    fill(number, !state.isWhole ? "Not known: the register did not answer yet."
      : `${count(found.length, "person", "people")}${word ? " found" : " in the register"}.`);
    fill(list, found.slice(0, MOST_SHOWN).map(row));
  };
  search.addEventListener("input", draw);
  forms.slice(1).forEach((one) => propose(one, "who", () => state.people.map(({ who, name }) => [who, name])));
  const node = make("div", {}, make("h1", {}, "People"),
    make("div", { class: "three" }, card("enter", "Enter", forms[0].node), card("train", "Train", forms[1].node),
      card("withdraw", "Withdraw a training", forms[2].node)),
    card("all", "Everybody", make("div", { class: "field" },
      make("label", { for: "find-people" }, "Find by name, initials or role"), search), number, list));
  return { node, update: draw };
}
