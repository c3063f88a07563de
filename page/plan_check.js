// The check of a plan before its ceremony: which of the expected people cover which seats of which steps on its day,
// and which steps nobody can fill.

import { card, count, fill, make } from "./dom.js";
import { form } from "./forms.js";
import { fitting } from "./known.js";
import { firstSeating, shortSeats } from "./seating.js";
import { initialsOf, seatName } from "./staff.js";
import { ceremony, state } from "./state.js";

/** The steps with the same seats, as `1, 3 to 5`. */
function stepsText(numbers) {
  const runs = [];
  for (const number of numbers) {
    if (runs.at(-1)?.[1] === number - 1) {
      runs.at(-1)[1] = number;
    } else {
      runs.push([number, number]);
    }
  }
  return runs.map(([first, last]) => (first === last ? `${first}` : `${first} to ${last}`)).join(", ");
}

/** The check of a ceremony's script for these people on its day: for each list of seats its steps, who fits each seat,
 *  the first seating (null if there is none), and the seats that outnumber who fits them. */
export function checkPlan(known, number, people) {
  const { steps, day } = known.ceremonies[number];
  const groups = new Map();
  for (const step of steps) {
    const name = step.seats.join(";");
    groups.set(name, [...(groups.get(name) ?? []), step]);
  }
  return [...groups.values()].map((group) => {
    const { seats } = group[0];
    const fits = fitting(known, number, seats, people, day);
    const seating = firstSeating(seats.length, people.length, fits);
    return {
      steps: group.map((step) => step.number), seats,
      cover: seats.map((_, seat) => people.filter((__, person) => fits(seat, person))),
      seating: seating && seating.map((person) => people[person]),
      short: shortSeats(seats.length, people.length, fits),
    };
  });
}

/** A row of the check: steps, seats with who covers them, and who would be recorded. */
function row({ steps, seats, cover, seating, short }) {
  return make("tr", { class: seating ? "" : "wrong-row" },
    make("th", { scope: "row" }, stepsText(steps)),
    make("td", {}, seats.map((seat, place) => make("div", { class: short.includes(place) ? "wrong" : "" },
      make("b", { title: seatName(seat) }, seat), ` ${cover[place].join(", ") || "nobody"}`))),
    make("td", {}, seating ? seating.join(", ") : "nobody can sign it"));
}

/** What the check says in a line. */
function verdict(found) {
  const bad = found.filter((one) => !one.seating).flatMap((one) => one.steps).sort((one, other) => one - other);
  return bad.length === 0 ? "These people can fill every step."
    : `${count(bad.length, "step")} that these people cannot fill: ${stepsText(bad)}.`;
}

/** The card of the check, for a ceremony that is planned. */
export function planCard() {
  const table = make("div", { class: "scroll", id: "plan-check", tabindex: "0",
    "aria-label": "The check of the plan" });
  const told = make("p", { id: "plan-verdict", role: "status" });
  const made = form({
    id: "expected", text: "Check the plan", kind: "", of: `-${state.number}`, isLocal: true,
    fields: [{ name: "who", label: "Who is expected (initials; empty for everybody in the register)", wide: true,
      capitals: true, example: "AL CD", read: initialsOf, keep: true }],
    send: async () => { update(); return null; },
  });
  const node = card("plan-check-card", "Check of the plan", make("p", { class: "hint" },
    "Who covers which seats on the day for which the ceremony is planned. A person has one seat of a step."), made.node,
  told, table);
  const update = () => {
    if (!ceremony()) {
      return;
    }
    const chosen = initialsOf(made.inputs.who.value);
    const people = state.people.map((one) => one.who).filter((who) => chosen.length === 0 || chosen.includes(who));
    const unknown = chosen.filter((who) => !state.known.people.has(who));
    const found = checkPlan(state.known, state.number, people);
    fill(told, verdict(found), unknown.length > 0 ? ` Not in the register: ${unknown.join(", ")}.` : "");
    told.className = found.every((one) => one.seating) && unknown.length === 0 ? "" : "wrong";
    fill(table, make("table", { class: "rows" },
      make("thead", {}, make("tr", {}, ["Steps", "Seats, and who covers them", "Would be recorded"].map((text) =>
        make("th", { scope: "col" }, text)))), make("tbody", {}, found.map(row))));
  };
  made.inputs.who.addEventListener("input", update);
  return { node, update };
}
