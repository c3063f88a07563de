// What the record of a ceremony tells, from the commands and the reports alone, as data: view_record.js draws it.

import { ROLES, ROLE_NAMES, isTrained, placeOf, seatName } from "./staff.js";
import { ceremonyOf } from "./paths.js";
import { custodyOf, holdersOn } from "./known.js";

/** The days on which a ceremony was held: from its opening to its closing or its last act. */
function daysOf({ day, opened, closed, mark }) {
  const first = (opened ?? day).slice(0, 10);
  const last = (closed ?? mark ?? first).slice(0, 10);
  return { first, last };
}

/** What somebody was on a day: the roles, the place, or a visitor. */
function roleOf(person, day, places) {
  const place = placeOf(person.who, places);
  const roles = ROLES.filter((role) => isTrained(person, role, day));
  return [...roles, ...(place ? [place] : [])].join(", ") || "visitor";
}

/** Who took part: initials, name, role on the day of the first stay, and the stays, by the first stay. */
function peopleOf(known, stays) {
  const found = new Map();
  for (const { who, name, since, until } of stays) {
    const day = since.slice(0, 10);
    const role = () => roleOf(known.people.get(who), day, holdersOn(known, day));
    const one = found.get(who) ?? { who, name, role: role(), stays: [] };
    one.stays.push({ since, until });
    found.set(who, one);
  }
  return [...found.values()];
}

/** Where each step, exception and act on custody belongs: by the number of its command. */
function eventsOf(known, script) {
  const events = [];
  const acts = known.ceremonies[script.number].acts;
  const numbers = known.commands.flatMap((command, place) =>
    (ceremonyOf(command) === script.number ? [place + 1] : []));
  const steps = [...script.steps];
  const exceptions = [...script.exceptions];
  for (const number of numbers) {
    const { path, members } = known.commands[number - 1];
    if (path.endsWith("/signature")) {
      events.push({ kind: "step", ...steps.shift() });
    } else if (path.endsWith("/exceptions")) {
      events.push({ kind: "exception", ...exceptions.shift() });
      if (members.pass) {
        events.push({ kind: "step", ...steps.shift() });
      }
    }
    events.push(...acts.filter((act) => act.number === number).map((act) => ({ kind: "custody", ...act })));
  }
  return [...events, ...steps.map((step) => ({ kind: "step", ...step }))];
}

/** The custody of the facility: safes with what is in them, the table, spent bags and loose items. */
function custodyAt({ safes, bags, loose }, facility) {
  const here = bags.filter((bag) => bag.spot.endsWith(facility));
  return {
    safes: [1, 2].map((safe) => ({ safe, state: safes[`${safe} ${facility}`] })),
    bags: here, loose: loose[facility],
  };
}

/** The bags that were cut in the ceremony. */
function cutIn({ acts }) {
  return acts.filter((act) => act.act === "cut").map((act) => act.serial);
}

/** The codes that the record uses, each with its meaning. */
function legendOf(script, people) {
  const codes = new Set(script.steps.flatMap((step) => step.seats));
  people.flatMap(({ role }) => role.split(", ")).map((one) => one.split("-")[0]).filter((one) => one in ROLE_NAMES)
    .forEach((one) => codes.add(one)); // the place CO-EAST-1 is that of a CO
  const rank = (code) => [...Object.keys(ROLE_NAMES)].indexOf(code.split("/")[0]);
  return [...codes].sort((one, other) => rank(one) - rank(other) || (one < other ? -1 : 1))
    .map((code) => [code, seatName(code)]);
}

/** The record of a ceremony: from its annotated script and its stays (of the reports), and from the commands. */
export function recordOf(known, script, stays) {
  const ceremony = known.ceremonies[script.number];
  const people = peopleOf(known, stays);
  const own = known.commands.filter((command) => ceremonyOf(command) === script.number).length;
  return {
    ...script, days: daysOf(ceremony), people, legend: legendOf(script, people), events: eventsOf(known, script),
    custody: custodyAt(ceremony.custody ?? custodyOf(known), script.facility), cut: cutIn(ceremony),
    commands: { own, all: known.commands.length },
  };
}
