// The accepted commands as sentences, with the words of `kcr journal`.

import { ceremonyOf, readPath } from "./paths.js";

const WAYS = { in: "entered", out: "left" };

/** People by name and initials. */
function named(known, list) {
  return list.map((who) => `${known.people.get(who)?.name ?? "?"} (${who})`).join(", ");
}

/** What a passed step adds to the sentence of an exception. */
function passed(known, { pass }, { step, seating }) {
  return pass ? ` passed step ${step} with ${named(known, seating ?? [])}` : "";
}

/** What each kind of command did: `it` has the parts of the path, the members and what was answered. */
const SENTENCES = {
  person: (known, { who }) => `${named(known, [who])} was entered.`,
  training: (known, it) => `${named(known, [it.who])} is trained as ${it.role} from ${it.from} until ${it.until}.`,
  withdrawal: (known, it) => `${named(known, [it.who])} is no longer trained as ${it.role} from ${it.day} on.`,
  appointment: (known, it) => `${named(known, [it.who])} holds ${it.place} from ${it.day} on.`,
  replacement: (known, it) => `${named(known, [it.who])} takes over ${it.place} from ${it.day} on.`,
  release: (known, { place, day }) => `${place} is vacant from ${day} on.`,
  box: (known, { facility, box, place }) => `Box ${box} at ${facility} was added for ${place}.`,
  item: (known, { item, ceremony }) => `Item ${item} was added in ceremony ${ceremony}.`,
  plan: (known, { number, facility, day }) => `Ceremony ${number} was planned at ${facility} for ${day}.`,
  opening: (known, { ceremony }) => `Ceremony ${ceremony} was opened.`,
  closing: (known, { ceremony }) => `Ceremony ${ceremony} was closed.`,
  sheet: (known, { who, way, ceremony }) => `${named(known, who)} ${WAYS[way]} the room of ceremony ${ceremony}.`,
  signature: (known, { step, ceremony, seating }) =>
    `Step ${step} of ceremony ${ceremony} was signed by ${named(known, seating ?? [])}.`,
  exception: (known, it) => `Exception ${it.exception} of ceremony ${it.ceremony}${passed(known, it, it)}: ${it.text}`,
  safe: (known, { by, open, safe, ceremony }) =>
    `${named(known, [by])} ${open ? "opened" : "shut"} safe ${safe} in ceremony ${ceremony}.`,
  seal: (known, { serial, items, ceremony }) =>
    `Bag ${serial} was sealed with ${items.join(", ")} in ceremony ${ceremony}.`,
  take: (known, { serial, ceremony }) => `Bag ${serial} was taken to the table in ceremony ${ceremony}.`,
  put: (known, { serial, to, ceremony }) =>
    `Bag ${serial} was put into ${to === "safe1" ? "safe 1" : `box ${to}`} in ceremony ${ceremony}.`,
  cut: (known, { serial, ceremony }) => `Bag ${serial} was cut open in ceremony ${ceremony}.`,
};

/** The line of a command: its number from 1, its moment or day, its ceremony if it names one, and what it did. */
export function lineOf(known, number) {
  const command = known.commands[number - 1];
  const { path, members, told } = command;
  const { kind, ...parts } = readPath(path);
  return {
    number, ceremony: ceremonyOf(command), when: members.at ?? members.from ?? members.day ?? "-",
    sentence: SENTENCES[kind](known, { ...members, ...parts, ...told }),
  };
}
