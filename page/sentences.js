// What each refusal of each command means, in one table. A row has the kinds of commands, the number of the refusal,
// when the row holds (null: always), the sentence, and for refusals of a form the field that it is about.
//
// A sentence gets `body` (the refusal), `members` and `parts` (of the command and its path), `known` (the register's
// state), `ceremony` (as it is known), `day` (of the moment) and `on` (that day in words).

import { seconds } from "./clock.js";
import { boxOf, holdersOn, onTable, openSafes, presentAt } from "./known.js";
import { bytesOf, faultOfLine, faultOfScript } from "./script_rules.js";
import { fits, seatName } from "./staff.js";

const INITIALS = /^[A-Z]{2,4}$/;
const CODE = /^[A-Z0-9]{4,16}$/;
const ACTS = ["item", "closing", "sheet", "signature", "exception", "safe", "seal", "take", "put", "cut"];
const OF_BAGS = ["seal", "take", "put", "cut"];
const OF_PEOPLE = ["training", "withdrawal", "appointment", "replacement", "sheet", "safe"];

/** A value as it was sent, in quotes. */
const quoted = (value) => `'${value}'`;

/** Initials that are not of their form. */
const initials = (text) => (text === "" ? "Initials are missing: 2 to 4 capital letters."
  : `${quoted(text)}: initials are 2 to 4 capital letters.`);

/** A code that is not of its form. */
const code = (text, what) => `${quoted(text)}: ${what} has capital letters and digits, 4 to 16 of them.`;

/** A day that is not of its form or does not exist. */
const dayForm = (label, text) => `${label} must be like 2026-11-20, a day that exists, of 2000 to 2099: not `
  + `${quoted(text)}.`;

/** What is wrong with a list of codes. */
function listFault(list, form, most, what, none) {
  const twice = list.find((one, place) => list.indexOf(one) !== place);
  const bad = list.find((one) => !form.test(one));
  if (list.length === 0) {
    return none;
  }
  if (bad !== undefined) {
    return form === INITIALS ? initials(bad) : code(bad, what);
  }
  return twice ? `${twice} is named twice.` : `At most ${most} are taken at once: here are ${list.length}.`;
}

/** The number of a ceremony or a box that is not of its form. */
const numberForm = (what, value) => `The number of a ${what} is 1 to 9999, without zeros in front: not `
  + `${quoted(value)}.`;

/** A text on one line that is not of its form. */
const lineForm = (what, text, most) => `${what} has 1 to ${most} bytes on one line: ${faultOfLine(text, most)
  ?? `it has ${bytesOf(text)} bytes`}.`;

/** The people that a list of initials names, with their names. */
const named = (known, list) => list.map((who) => `${who} ${known.people.get(who)?.name ?? ""}`.trim()).join(", ");

/** Where a bag is, in words. */
const spotText = (spot) => (spot === "spent" ? "spent" : `at ${spot}`);

/** The role that a safe needs. */
const roleOf = (safe) => `SSC${safe}`;

/** The step and the seats of a shortage, seat by seat. */
function shortText({ body, known, ceremony, day, members, kind, parts }) {
  const seats = kind === "exception" ? ["CA", "IW"] : ceremony.steps[parts.step - 1].seats;
  const people = presentAt(known, ceremony.number, members.at);
  const places = holdersOn(known, day);
  const lines = body.seats.map((position) => {
    const seat = seats[position - 1];
    const who = people.filter((one) => fits(seat, known.people.get(one), ceremony.facility, day, places));
    return `seat ${position}, ${seat} (${seatName(seat)}): ${who.length > 0 ? `in the room ${who.join(", ")}`
      : "nobody in the room fits"}`;
  });
  return `Too few people fit: ${lines.join("; ")}. In the room: ${people.join(" ") || "nobody"}. A person has one `
    + "seat.";
}

/** Why somebody does not come in or go out in turn. */
function turnText({ body, known, members, ceremony }) {
  const inside = known.inside.get(body.who);
  const last = Object.values(known.ceremonies).flatMap((one) => one.stays.filter((stay) => stay.who === body.who))
    .map((stay) => stay.until ?? stay.since).sort().at(-1);
  if (last >= members.at) {
    return `${body.who} has an entry at ${last}: the moment must be later.`;
  }
  if (members.way === "in") {
    return inside?.ceremony === ceremony.number ? `${body.who} is in the room already, since ${inside.since}.`
      : `${body.who} is in the room of ceremony ${inside?.ceremony}, and goes out there first.`;
  }
  return inside ? `${body.who} is in the room of ceremony ${inside.ceremony}, not in this one.`
    : `${body.who} is not in the room.`;
}

/** Who would be alone. */
function loneText({ body, known, members, ceremony }) {
  const others = presentAt(known, ceremony.number, body.moment);
  const here = members.way === "in" ? [...new Set([...others, ...(body.moment >= members.at ? members.who : [])])]
    : others.filter((who) => body.moment < members.at || !members.who.includes(who));
  return `At ${body.moment} exactly one person would be in the room${here.length === 1 ? `: ${here[0]}` : ""}. `
    + "Enter all who come or go then in one request.";
}

/** The steps that are not done, as numbers. */
function stepsLeft({ ceremony }) {
  const left = ceremony.steps.filter((step) => step.state === "open").map((step) => step.number);
  return left.length === 1 ? `Step ${left[0]} is neither signed nor passed over.`
    : `Steps ${left[0]} to ${left.at(-1)} are neither signed nor passed over.`;
}

/** Who is in the room, or whose row is later than the closing. */
function roomLeft({ known, ceremony, members }) {
  const here = presentAt(known, ceremony.number, members.at);
  const later = ceremony.stays.find(({ since, until }) => since > members.at || until > members.at);
  return here.length > 0 ? `In the room: ${named(known, here)}.`
    : `The sheet has an entry of ${later?.who ?? "somebody"} after ${members.at}.`;
}

/** The state of a ceremony that refuses an act. */
function stateText({ ceremony, kind }) {
  const { number, state, opened, closed, day } = ceremony;
  if (state === "closed") {
    return `Ceremony ${number} is closed since ${closed}. A closed one stays closed.`;
  }
  return kind === "opening" ? `Ceremony ${number} is open already, since ${opened}.`
    : `Ceremony ${number} is planned for ${day}, and not open yet.`;
}

/** The last row of a place. */
const lastTurn = ({ known, parts }) => known.places[parts.place]?.at(-1);

/** The place that somebody holds on a day or later. */
function placeHeld(known, who, day) {
  return Object.keys(known.places).find((place) => known.places[place].some((turn, number, all) => {
    const next = all[number + 1]?.day;
    return turn.who === who && (next === undefined || (next > day && next > turn.day));
  }));
}

/** A place that somebody was ever put in. */
const placeEver = (known, who) => Object.keys(known.places).find((place) =>
  known.places[place].some((turn) => turn.who === who));

/** The roles that somebody was ever trained for. */
const rolesEver = (known, who) => [...new Set(known.people.get(who)?.roles.map((one) => one.role))].join(", ");

const FORMS = [
  [["person", "appointment", "replacement"], 10, "who", ({ members }) => initials(members.who)],
  [["sheet"], 10, "who", ({ members }) => listFault(members.who, INITIALS, 32, "", "Name who comes in or goes out.")],
  [["person"], 10, "name", ({ members }) => lineForm("A name", members.name, 120)],
  [["exception"], 10, "text", ({ members }) => lineForm("What happened", members.text, 1000)],
  [["training"], 10, "from", ({ members }) => dayForm("The first day", members.from)],
  [["training"], 10, "until", ({ members }) => dayForm("The last day", members.until)],
  [["withdrawal", "appointment", "replacement", "release", "plan"], 10, "day",
    ({ members }) => dayForm("The day", members.day)],
  [[...ACTS, "opening"], 10, "at", ({ members }) => "The moment must be like 2026-11-20T20:45:10Z, a moment that "
    + `exists; typed, 20:45 is enough: not ${quoted(members.at)}.`],
  [["plan"], 10, "number", ({ members }) => numberForm("ceremony", members.number)],
  [["box"], 10, "box", ({ members }) => numberForm("box", members.box)],
  [["safe"], 10, "by", () => "Choose who does it: somebody in the room."],
  [["item"], 10, "item", ({ members }) => code(members.item, "an item")],
  [["seal"], 10, "items", ({ members }) => listFault(members.items, CODE, 64, "an item", "Name the items.")],
  [["put"], 10, "to", ({ members }) => `${quoted(members.to)}: a store is safe 1, or the number of a box, 1 to 9999.`],
];

const PATHS = [
  [["training", "withdrawal"], 7, "who", ({ parts }) => initials(parts.who)],
  [OF_BAGS, 7, "serial", ({ parts }) => code(parts.serial, "a serial")],
];

const PEOPLE = [
  [OF_PEOPLE, 12, ({ body }) => body.thing.startsWith("person"), ({ body }) =>
    `The register has no ${body.thing}: enter ${body.thing.slice(7)} under People first.`],
  [["person"], 13, null, ({ members, known }) =>
    `${members.who} is in the register already: ${known.people.get(members.who)?.name ?? "somebody else"}.`],
  [["training"], 13, null, ({ parts, members }) =>
    `${parts.who} has this training already: ${members.role} from ${members.from} to ${members.until}.`],
  [["training"], 14, null, ({ members }) => `The last day, ${members.until}, is before the first, ${members.from}.`],
  [["training"], 15, null, ({ parts, known }) => `${parts.who} was put in ${placeEver(known, parts.who) ?? "a place"}: `
    + "nobody is both in a place and trained, even at different times."],
  [["appointment", "replacement"], 15, null, ({ members, known }) => `${members.who} was trained `
    + `(${rolesEver(known, members.who)}): nobody is both in a place and trained, even at different times.`],
  [["appointment"], 16, ({ members, known }) => placeHeld(known, members.who, members.day), ({ members, known }) =>
    `${members.who} holds ${placeHeld(known, members.who, members.day)} on ${members.day} or later.`],
  [["appointment"], 16, null, ({ members, known }) => `${members.place} has a holder on ${members.day} or later`
    + `${known.places[members.place]?.at(-1).who ? `, ${known.places[members.place].at(-1).who}` : ""}: replace or `
    + "release the holder."],
  [["replacement"], 16, null, ({ members, known }) =>
    `${members.who} holds ${placeHeld(known, members.who, members.day) ?? "a place"} on ${members.day} or later.`],
  [["replacement", "release"], 14, null, (it) => `${lastTurn(it)?.who} holds ${it.parts.place} only from `
    + `${lastTurn(it)?.day} on: take a later day.`],
  [["replacement", "release"], 17, null, ({ parts }) => `${parts.place} has no holder: appoint one instead.`],
  [["withdrawal"], 17, null, ({ parts, members }) =>
    `${parts.who} is trained as ${members.role} neither on ${members.day} nor later.`],
  [["appointment", "replacement", "release"], 18, null, ({ body }) => `Up to ${body.day}, the day of the last act in a `
    + "ceremony, places no longer change: take a later day."],
  [["withdrawal"], 18, null, ({ body }) => `Up to ${body.day}, the day of the last act in a ceremony, trainings are no `
    + "longer withdrawn: take a later day."],
  [["box"], 13, ({ members, known }) => known.boxes[members.facility][members.box], ({ members, known }) =>
    `${members.facility} has box ${members.box} already, for ${known.boxes[members.facility][members.box]}.`],
  [["box"], 13, null, ({ members, known }) => `${members.place} has box `
    + `${boxOf(known, members.facility, members.place) ?? "another"} already.`],
  [["box"], 14, null, ({ members }) => `${members.place} is no place of a crypto officer of ${members.facility}.`],
];

const CEREMONIES = [
  [["opening", ...ACTS], 12, ({ body }) => body.thing.startsWith("ceremony"), ({ body }) =>
    `The register has no ${body.thing}: plan it first.`],
  [["signature"], 12, null, ({ body, ceremony }) => `Ceremony ${ceremony?.number} has no ${body.thing}.`],
  [["plan"], 13, null, ({ members, known }) => `Ceremony ${members.number} is there already`
    + `${known.ceremonies[members.number] ? `: ${known.ceremonies[members.number].facility}, `
    + `${known.ceremonies[members.number].day}` : ""}.`],
  [["plan"], 19, null, ({ body, members }) => {
    const fault = faultOfScript(members.script);
    return fault?.row === body.row ? `Row ${body.row}: ${fault.why}.` : `The script breaks a rule in row ${body.row}.`;
  }],
  [["opening"], 14, null, ({ ceremony }) => `Ceremony ${ceremony?.number} is planned for ${ceremony?.day}, and is not `
    + "opened on an earlier day."],
  [["opening", ...ACTS], 20, null, (it) => stateText(it)],
  [["opening"], 21, null, ({ known, ceremony }) => {
    const other = Object.values(known.ceremonies).find((one) => one.state === "open"
      && one.facility === ceremony.facility);
    return `Ceremony ${other?.number} is open in ${ceremony.facility}: close it first.`;
  }],
  [["sheet"], 22, null, ({ body, members }) => `The ceremony has an act at ${body.mark}. Who comes or goes does so `
    + `after it: not at ${members.at}.`],
  [ACTS.filter((kind) => kind !== "sheet"), 22, null, ({ body, members }) => `The ceremony has an act at ${body.mark}, so nothing before it is taken: `
    + `${members.at} is ${seconds(body.mark) - seconds(members.at)} s earlier.`],
  [["signature"], 23, null, ({ body, ceremony, parts }) => (body.next > ceremony.steps.length
    ? "All steps of the script are done."
    : `The next step is ${body.next}${body.next > parts.step ? `: step ${parts.step} is done already` : ""}.`)],
  [["exception"], 23, null, () => "No step is left to pass over."],
  [["signature", "exception"], 32, null, (it) => shortText(it)],
  [["exception"], 27, null, () => "The ceremony has 200 exceptions: no more are taken."],
  [["closing"], 31, ({ body }) => body.part === "steps", (it) => stepsLeft(it)],
  [["closing"], 31, ({ body }) => body.part === "room", (it) => roomLeft(it)],
  [["closing"], 31, ({ body }) => body.part === "safes", ({ known, ceremony: { facility } }) =>
    `Open in ${facility}: safe ${openSafes(known, facility).join(" and safe ")}.`],
  [["closing"], 31, null, ({ known, ceremony: { facility } }) =>
    `On the table of ${facility}: ${onTable(known, facility).join(", ")}.`],
  [["sheet"], 24, null, (it) => turnText(it)],
  [["sheet"], 25, null, () => "At some moment more than 128 people would be in the room: let people go out first."],
  [["sheet"], 26, null, (it) => loneText(it)],
  [["sheet"], 27, null, () => "The ceremony has 1,000 entries of people who came in: no more are taken."],
];

const CUSTODY = [
  [["safe"], 28, null, ({ members, parts }) => `Safe ${parts.safe} is ${members.open ? "open" : "shut"} already.`],
  [["safe"], 30, ({ known, ceremony, members }) => !presentAt(known, ceremony.number, members.at).includes(members.by),
    ({ members }) => `${members.by} is not in the room.`],
  [["safe"], 30, null, ({ members, parts, on }) =>
    `${members.by} is here but not trained as ${roleOf(parts.safe)} ${on}.`],
  [["item"], 13, null, ({ members }) => `${members.item} was added before: each item has a code of its own.`],
  [["seal"], 13, null, ({ parts }) => `${parts.serial} was sealed before: each bag has a new serial.`],
  [["seal"], 12, null, ({ body }) => `The register has no ${body.thing}: add it first.`],
  [["put"], 12, ({ body }) => body.thing.startsWith("box"), ({ body, ceremony }) =>
    `${ceremony.facility} has no ${body.thing}: add it under Places first.`],
  [["take", "put", "cut"], 12, null, ({ body }) => `The register has no ${body.thing}: look at its serial again.`],
  [["take"], 28, null, ({ parts, known }) => `Bag ${parts.serial} is at ${known.bags[parts.serial].spot}, and that `
    + "safe is shut: open it first."],
  [["put"], 28, null, ({ members }) => (members.to === "safe1" ? "Safe 1 is shut: open it first."
    : `Box ${members.to} is in safe 2, which is shut: open it first.`)],
  [["seal"], 29, null, ({ members, known, ceremony }) => {
    const item = members.items.find((one) => known.items[one] !== ceremony.facility);
    const bag = Object.keys(known.bags).find((serial) => known.bags[serial].items.includes(item));
    return bag ? `${item} is in bag ${bag}, and not loose.` : `${item} is loose at ${known.items[item]}, not here.`;
  }],
  [["take"], 29, null, ({ parts, known, ceremony }) => `Bag ${parts.serial} is in no safe of ${ceremony.facility}: it `
    + `is ${spotText(known.bags[parts.serial].spot)}.`],
  [["put", "cut"], 29, null, ({ parts, known, ceremony }) => `Bag ${parts.serial} is not on the table of `
    + `${ceremony.facility}: it is ${spotText(known.bags[parts.serial].spot)}.`],
  [["item", ...OF_BAGS], 30, ({ body }) => body.who === "CA", ({ on }) => `Nobody in the room is trained as CA ${on}.`],
  [["take", "put"], 30, ({ body, known, day }) => holdersOn(known, day)[body.who], ({ body, known, day }) =>
    `${holdersOn(known, day)[body.who]} holds ${body.who}, whose box it is, and is not in the room.`],
  [["take", "put"], 30, null, ({ body, on }) => `${body.who}, whose box it is, has no holder ${on}.`],
];

/** The rows: kinds, number, when the row holds, sentence, and the field of a form that it is about. */
export const ROWS = [
  ...FORMS.map(([kinds, number, member, say]) => [kinds, number, ({ body }) => body.member === member, say, member]),
  ...PATHS.map(([kinds, number, member, say]) => [kinds, number, null, say, member]),
  ...[...PEOPLE, ...CEREMONIES, ...CUSTODY].map((row) => [...row, null]),
];

/** The row of a refusal of a command; null if the table has none. */
export function rowOf(it) {
  return ROWS.find(([kinds, number, holds]) => kinds.includes(it.kind) && number === it.body.number
    && (holds === null || Boolean(holds(it)))) ?? null;
}
