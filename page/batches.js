// Many commands from a list: people with their trainings, boxes, and the stock that is there. Each list becomes the
// commands that the register lacks, so a list that was half sent can be sent again.

import { rowsOf } from "./csv.js";
import { PLACES, ROLES } from "./staff.js";

const INITIALS = /^[A-Z]{2,4}$/;
const CODE = /^[A-Z0-9]{4,16}$/;
const DAY = /^20\d\d-\d\d-\d\d$/;
const NUMBER = /^[1-9]\d{0,3}$/;

/** The rows of a list with their numbers, without a first row of names; each field without blanks around it. */
function listOf(text, first) {
  const rows = rowsOf(text).map((row, place) => [place + 1, ...row.map((field) => field.trim())]);
  return rows.filter(([number, word]) => !(number === 1 && word.toLowerCase() === first));
}

/** Collects commands and faults: the same command once, and a fault with its row. */
function collector() {
  const commands = [];
  const faults = [];
  return {
    commands, faults,
    add(command) {
      const name = JSON.stringify([command.path, command.members]);
      if (!commands.some((one) => one.name === name)) {
        commands.push({ ...command, name });
      }
    },
    fault: (number, why) => faults.push(`Row ${number}: ${why}.`),
  };
}

/** Notes the person of a row. Returns whether the row may go on. */
function addPerson(known, names, into, number, who, name) {
  const there = known.people.get(who)?.name ?? names.get(who);
  if (!INITIALS.test(who)) {
    into.fault(number, `'${who}': initials are 2 to 4 capital letters`);
  } else if (there !== undefined && name !== "" && there !== name) {
    into.fault(number, `${who} is ${there} already, not ${name}`);
  } else if (there === undefined && name === "") {
    into.fault(number, `${who} has no name`);
  } else {
    if (there === undefined) {
      names.set(who, name);
      into.add({ path: "/people", members: { who, name }, says: `Enter ${who}, ${name}` });
    }
    return true;
  }
  return false;
}

/** Notes the role or the place of a row. */
function addRole(known, into, number, who, role, from, until) {
  const isPlace = PLACES.includes(role);
  if (!ROLES.includes(role) && !isPlace) {
    into.fault(number, `'${role}' is no role (${ROLES.join(", ")}) and no place such as CO-EAST-1`);
  } else if (!DAY.test(from) || (!isPlace && !DAY.test(until))) {
    into.fault(number, `a day is like 2026-11-20, not '${DAY.test(from) ? until : from}'`);
  } else if (isPlace && !known.places[role]?.some((turn) => turn.who === who && turn.day === from)) {
    into.add({ path: "/custodians", members: { place: role, who, day: from },
      says: `Appoint ${who} to ${role} from ${from}` });
  } else if (!isPlace && !known.people.get(who)?.roles.some((one) => one.role === role && one.from === from
    && one.until === until)) {
    into.add({ path: `/people/${who}/roles`, members: { role, from, until },
      says: `Train ${who} as ${role} from ${from} to ${until}` });
  }
}

/** The commands of a list of people: initials, name, role or place, from, until. A row without a role is a visitor. */
export function peopleBatch(known, text) {
  const into = collector();
  const names = new Map();
  for (const [number, initials, name = "", role = "", from = "", until = ""] of listOf(text, "initials")) {
    const who = initials.toUpperCase();
    if (addPerson(known, names, into, number, who, name) && role !== "") {
      addRole(known, into, number, who, role.toUpperCase(), from, until);
    }
  }
  return into;
}

/** The commands of a list of boxes of a facility: box, place. */
export function boxesBatch(known, text, facility) {
  const into = collector();
  for (const [number, box, word = ""] of listOf(text, "box")) {
    const place = word.toUpperCase();
    const there = known.boxes[facility][box];
    if (!NUMBER.test(box)) {
      into.fault(number, `'${box}': the number of a box is 1 to 9999`);
    } else if (!PLACES.includes(place) || !place.startsWith(`CO-${facility}-`)) {
      into.fault(number, `'${place}' is no place of a crypto officer of ${facility}`);
    } else if (there !== undefined && there !== place) {
      into.fault(number, `box ${box} is that of ${there} already`);
    } else if (there === undefined) {
      into.add({ path: "/boxes", members: { facility, box: Number(box), place },
        says: `Add box ${box} of ${facility} for ${place}` });
    }
  }
  return into;
}

/** What is wrong with a row of stock; null if nothing is. */
function stockFault(known, facility, serial, items, store) {
  const bad = items.find((item) => !CODE.test(item));
  if (!CODE.test(serial)) {
    return `'${serial}': a serial has capital letters and digits, 4 to 16 of them`;
  }
  if (bad !== undefined || items.length === 0) {
    return bad === undefined ? "a bag has an item"
      : `'${bad}': an item has capital letters and digits, 4 to 16 of them`;
  }
  if (store !== "safe1" && known.boxes[facility][store] === undefined) {
    return `'${store}' is neither safe1 nor a box of ${facility}`;
  }
  return null;
}

/** The commands of one bag that the register lacks: its items, its sealing, and its way into the store. */
function bagCommands(known, ceremony, serial, items, store) {
  const bag = known.bags[serial];
  const spot = `${store === "safe1" ? "safe 1" : `box ${store}`} ${ceremony.facility}`;
  const path = `/ceremonies/${ceremony.number}/bags/${serial}`;
  const isNew = (item) => known.items[item] === undefined
    && !Object.values(known.bags).some((one) => one.items.includes(item));
  const found = bag ? [] : items.filter(isNew).map((item) => ({
    path: "/items", members: { ceremony: ceremony.number, item }, isAct: true, says: `Add item ${item}` }));
  if (!bag) {
    found.push({ path: `${path}/seal`, members: { items }, isAct: true,
      says: `Seal ${items.join(", ")} into ${serial}` });
  }
  if (bag?.spot !== spot) {
    found.push({ path: `${path}/put`, members: { to: store }, isAct: true, says: `Put bag ${serial} into ${spot}` });
  }
  return found;
}

/** The store that a list names, as the register wants it: `safe 1` and `box 3` are as good as `safe1` and `3`. */
function storeOf(text) {
  return text.toLowerCase().replace(/^safe +/, "safe").replace(/^box +/, "");
}

/** The commands of a list of stock, entered in an open ceremony: serial, items (with blanks between), store. */
export function stockBatch(known, text, ceremony) {
  const into = collector();
  for (const [number, word, codes = "", to = ""] of listOf(text, "serial")) {
    const [serial, store] = [word.toUpperCase(), storeOf(to)];
    const items = codes.toUpperCase().split(/[\s;]+/).filter(Boolean);
    const fault = stockFault(known, ceremony.facility, serial, items, store);
    if (fault) {
      into.fault(number, fault);
    } else {
      bagCommands(known, ceremony, serial, items, store).forEach(into.add);
    }
  }
  return into;
}

/** What stock needs before it can be entered: each need, and whether it is met. */
export function stockNeeds(known, ceremony, inside, isTrainedNow, places, text) {
  const stores = new Set(listOf(text, "serial").map(([, , , to = ""]) => storeOf(to)));
  const boxes = [...stores].filter((store) => NUMBER.test(store));
  const holders = boxes.map((box) => [box, known.boxes[ceremony?.facility ?? "EAST"][box]]);
  const safe = (number) => known.safes[`${number} ${ceremony?.facility}`] === "open";
  return [
    ["A ceremony is chosen and open", ceremony?.state === "open"],
    ["Somebody trained as CA is in the room", inside.some((who) => isTrainedNow(who, "CA"))],
    ...(stores.has("safe1") ? [["Safe 1 is open", safe(1)]] : []),
    ...(boxes.length > 0 ? [["Safe 2 is open", safe(2)]] : []),
    ...holders.map(([box, place]) => [`The holder of ${place ?? "a place"}, box ${box}, is in the room`,
      inside.includes(places[place])]),
  ];
}
