// What there is in the register, replayed from its accepted commands: the one place where state is derived.
//
// The commands come from the register's feed, so none of them is refused here. Seatings follow from the register's
// rule. The reports have the seatings that were recorded.

import { rowsOf } from "./csv.js";
import { readPath } from "./paths.js";
import { seatsOf } from "./reports.js";
import { firstSeating } from "./seating.js";
import { fits } from "./staff.js";

/** Knowledge of a register without commands. */
export function nothing() {
  return {
    commands: [], last: null, people: new Map(), places: {}, ceremonies: {}, inside: new Map(),
    boxes: { EAST: {}, WEST: {} }, safes: {}, bags: {}, items: {},
  };
}

/** Puts texts in the order of their bytes: codes are ASCII. */
function byText(one, other) {
  return one < other ? -1 : Number(one > other);
}

/** Who holds which place on a day: the person of the last command with a day at most that day. */
export function holdersOn(known, day) {
  const found = {};
  for (const [place, turns] of Object.entries(known.places)) {
    const last = turns.findLast((turn) => turn.day <= day);
    if (last?.who) {
      found[place] = last.who;
    }
  }
  return found;
}

/** The initials of who is in the room of a ceremony at a moment, in their order. */
export function presentAt(known, ceremony, at) {
  return known.ceremonies[ceremony].stays.filter(({ since, until }) => since <= at && (until === null || until > at))
    .map((stay) => stay.who).sort(byText);
}

/** The question whether the person at a position fits the seat at a position, on a day. */
export function fitting(known, ceremony, seats, people, day) {
  const { facility } = known.ceremonies[ceremony];
  const places = holdersOn(known, day);
  return (seat, person) => fits(seats[seat], known.people.get(people[person]), facility, day, places);
}

/** The seating that a signature of these seats would get at a moment: initials seat by seat, or null. */
export function seatingAt(known, ceremony, seats, at) {
  const people = presentAt(known, ceremony, at);
  const found = firstSeating(seats.length, people.length, fitting(known, ceremony, seats, people, at.slice(0, 10)));
  return found && found.map((person) => people[person]);
}

/** Notes the training of a person, in the order of the register's answers: by first day, role, last day. */
function train({ roles }, { role, from, until }) {
  const order = ["CA", "IW", "SA", "SSC1", "SSC2", "RKOS", "SW"];
  roles.push({ role, from, until });
  roles.sort((one, other) => byText(one.from, other.from) || order.indexOf(one.role) - order.indexOf(other.role)
    || byText(one.until, other.until));
}

/** Notes a withdrawal: each training so far has the least day of those within it. */
function withdraw({ roles }, { role, day }) {
  roles.filter((one) => one.role === role && one.until >= day).forEach((one) => {
    one.withdrawn = one.withdrawn < day ? one.withdrawn : day;
  });
}

/** Moves the mark of a ceremony, and notes an act on custody for its record. */
function mark(known, ceremony, at, told = null) {
  ceremony.mark = ceremony.mark > at ? ceremony.mark : at;
  if (told) {
    ceremony.acts.push({ number: known.commands.length, at, ...told });
  }
}

/** Signs or passes over the next step of a ceremony, and notes with the command what the register answered. */
function finish(known, ceremony, step, state, seats, at) {
  const seating = seatingAt(known, ceremony.number, seats, at);
  Object.assign(step, { state, at, seats, seating });
  known.commands.at(-1).told = { step: step.number, seating };
  ceremony.done += 1;
}

/** The store of a put, as the register writes a spot. */
function storeOf(to, facility) {
  return `${to === "safe1" ? "safe 1" : `box ${to}`} ${facility}`;
}

/** What each kind of command changes: `named` has the ceremony and the other parts of the path. */
const CHANGES = {
  person: (known, _, { who, name }) => known.people.set(who, { who, name, roles: [] }),
  training: (known, { who }, members) => train(known.people.get(who), members),
  withdrawal: (known, { who }, members) => withdraw(known.people.get(who), members),
  appointment: (known, _, { place, who, day }) => { (known.places[place] ??= []).push({ who, day }); },
  replacement: (known, { place }, { who, day }) => { (known.places[place] ??= []).push({ who, day }); },
  release: (known, { place }, { day }) => { (known.places[place] ??= []).push({ who: null, day }); },
  box: (known, _, { facility, box, place }) => { known.boxes[facility][box] = place; },
  plan(known, _, { number, facility, day, script }) {
    const steps = rowsOf(script).slice(1).map(([, activity, seats], place) => ({
      number: place + 1, activity, state: "open", at: null, seats: seatsOf(seats), seating: [],
    }));
    known.ceremonies[number] = {
      number, facility, day, steps, state: "planned", opened: null, closed: null, mark: null, done: 0, exceptions: [],
      stays: [], acts: [], custody: null,
    };
  },
  opening(known, { ceremony }, { at }) {
    Object.assign(ceremony, { state: "open", opened: at });
    mark(known, ceremony, at);
  },
  closing(known, { ceremony }, { at }) {
    Object.assign(ceremony, { state: "closed", closed: at, custody: custodyOf(known) });
  },
  sheet(known, { ceremony }, { way, who, at }) {
    for (const one of who) {
      if (way === "in") {
        const stay = { ceremony: ceremony.number, who: one, since: at, until: null };
        ceremony.stays.push(stay);
        known.inside.set(one, stay);
      } else {
        known.inside.get(one).until = at;
        known.inside.delete(one);
      }
    }
  },
  signature(known, { ceremony, step }, { at }) {
    const found = ceremony.steps[step - 1];
    finish(known, ceremony, found, "signed", found.seats, at);
    mark(known, ceremony, at);
  },
  exception(known, { ceremony }, { text, pass, at }) {
    const step = pass ? ceremony.steps[ceremony.done] : null;
    if (pass) {
      finish(known, ceremony, step, "passed", ["CA", "IW"], at);
    }
    const exception = ceremony.exceptions.length + 1;
    ceremony.exceptions.push({ number: exception, at, step: step?.number ?? null, text });
    known.commands.at(-1).told = { ...known.commands.at(-1).told, exception };
    mark(known, ceremony, at);
  },
  safe(known, { ceremony, safe }, { open, by, at }) {
    known.safes[`${safe} ${ceremony.facility}`] = open ? "open" : "shut";
    mark(known, ceremony, at, { act: open ? "open" : "shut", safe: Number(safe), by });
  },
  item(known, _, { ceremony: number, item, at }) {
    const ceremony = known.ceremonies[number];
    known.items[item] = ceremony.facility;
    mark(known, ceremony, at, { act: "item", item });
  },
  seal(known, { ceremony, serial }, { items, at }) {
    items.forEach((item) => delete known.items[item]);
    known.bags[serial] = { items, spot: `table ${ceremony.facility}` };
    mark(known, ceremony, at, { act: "seal", serial, items: [...items].sort(byText) });
  },
  take(known, { ceremony, serial }, { at }) {
    const bag = known.bags[serial];
    const from = bag.spot;
    bag.spot = `table ${ceremony.facility}`;
    mark(known, ceremony, at, { act: "take", serial, items: [...bag.items].sort(byText), spot: from });
  },
  put(known, { ceremony, serial }, { to, at }) {
    const bag = known.bags[serial];
    bag.spot = storeOf(to, ceremony.facility);
    mark(known, ceremony, at, { act: "put", serial, items: [...bag.items].sort(byText), spot: bag.spot });
  },
  cut(known, { ceremony, serial }, { at }) {
    const bag = known.bags[serial];
    const { items } = bag;
    items.forEach((item) => { known.items[item] = ceremony.facility; });
    Object.assign(bag, { items: [], spot: "spent" });
    mark(known, ceremony, at, { act: "cut", serial, items: [...items].sort(byText) });
  },
};

/** Learns from one accepted command. Commands come in their order. */
export function learn(known, command) {
  const { kind, ceremony: number, ...parts } = readPath(command.path);
  const { members } = command;
  known.commands.push(command);
  known.last = members.at > (known.last ?? "") ? members.at : known.last;
  CHANGES[kind](known, { ceremony: known.ceremonies[number], ...parts }, members);
}

/** The people by initials. */
export function peopleOf(known) {
  return [...known.people.values()].sort((one, other) => byText(one.who, other.who));
}

/** The stays of a ceremony by their beginnings, then initials, each with the person's name. */
export function staysOf(known, ceremony) {
  return (known.ceremonies[ceremony]?.stays ?? [])
    .map(({ who, since, until }) => ({ who, name: known.people.get(who).name, since, until }))
    .sort((one, other) => byText(one.since, other.since) || byText(one.who, other.who));
}

/** The safes of a facility that are open. */
export function openSafes(known, facility) {
  return [1, 2].filter((safe) => known.safes[`${safe} ${facility}`] === "open");
}

/** The serials of the bags on the table of a facility. */
export function onTable(known, facility) {
  return Object.keys(known.bags).filter((serial) => known.bags[serial].spot === `table ${facility}`).sort(byText);
}

/** The box of a place in a facility; undefined if it has none. */
export function boxOf(known, facility, place) {
  return Object.keys(known.boxes[facility] ?? {}).find((box) => known.boxes[facility][box] === place);
}

/** The custody: safes by `1 EAST`, bags by serial, and loose items by facility. */
export function custodyOf(known) {
  const safes = { "1 EAST": "shut", "2 EAST": "shut", "1 WEST": "shut", "2 WEST": "shut", ...known.safes };
  const bags = Object.keys(known.bags).sort(byText)
    .map((serial) => ({ serial, spot: known.bags[serial].spot, items: [...known.bags[serial].items].sort(byText) }));
  const loose = { EAST: [], WEST: [] };
  Object.keys(known.items).sort(byText).forEach((item) => loose[known.items[item]].push(item));
  return { safes, bags, loose };
}
