// What the page knows of the register, and how it asks for it anew: the feed of accepted commands, and the annotated
// script of the chosen ceremony, which has the recorded seatings.

import { dayOfMoment, moment } from "./clock.js";
import { keepSafely } from "./dom.js";
import { commandsOf } from "./feed.js";
import * as known from "./known.js";
import { NoAnswer, feedAfter, readBy, report } from "./register.js";
import { readScript } from "./reports.js";

const SEEN = "kcr.seen";

/** The state. `isWhole` tells whether the feed was read to its end; until then nothing is known. `trouble` tells why
 *  the register did not answer; `lost` that it has not the commands that it had. `script` is undefined while it is not
 *  known, and null if the register has no such ceremony. */
export const state = {
  number: null, script: undefined, known: known.nothing(), isWhole: false, trouble: null, lost: null, people: [],
  stays: [], places: {}, placesDay: null, custody: known.custodyOf(known.nothing()),
};

const listeners = new Set();
let scriptRead = null; // "61 187": the ceremony and the number of commands for which the script was read
let last = Promise.resolve();
let drawn = null; // what was drawn, by what it follows from

/** Calls a listener after each change; returns how to end that. */
export function onChange(listener) {
  listeners.add(listener);
  return () => listeners.delete(listener);
}

/** Derives what is drawn, and tells all listeners. */
export function changed() {
  state.placesDay = dayOfMoment();
  state.people = known.peopleOf(state.known);
  state.places = known.holdersOn(state.known, state.placesDay);
  state.stays = known.staysOf(state.known, state.number);
  state.custody = known.custodyOf(state.known);
  listeners.forEach((listener) => listener());
}

/** Whether what is shown may be old, so that no command is sent. */
export function isAway() {
  return !state.isWhole || state.trouble !== null || state.lost !== null;
}

/** The person with these initials, or one without name and training. */
export function person(who) {
  return state.known.people.get(who) ?? { who, name: "", roles: [] };
}

/** The people who are in the room now, by initials, each with the beginning of the stay. */
export function inRoom() {
  return state.stays.filter((stay) => stay.until === null).sort((one, other) => (one.who < other.who ? -1 : 1));
}

/** The initials of who is in the room at the moment of what is entered. */
export function inRoomAtMoment() {
  return state.known.ceremonies[state.number] ? known.presentAt(state.known, state.number, moment()) : [];
}

/** The chosen ceremony as the commands have it; null if none is known. */
export function ceremony() {
  return state.known.ceremonies[state.number] ?? null;
}

/** The command that this browser saw last in the register: its number and its key. */
function seen() {
  try {
    return JSON.parse(localStorage.getItem(SEEN)) ?? { count: 0 };
  } catch {
    return { count: 0 };
  }
}

/** Notes the last command. If the register has not the one that was seen before, its commands are lost. */
function compare() {
  const { commands } = state.known;
  const { count, key } = seen();
  if (count > 0 && commands[count - 1]?.members.key !== key) {
    state.lost = { had: count, has: commands.length };
  } else if (commands.length > count) {
    keepSafely(localStorage, SEEN, { count: commands.length, key: commands.at(-1).members.key });
  }
}

/** Goes on with the register as it is, after its commands were lost. */
export function acceptLoss() {
  localStorage.removeItem(SEEN);
  state.lost = null;
  compare();
  changed();
}

/** Reads the feed again from its beginning. */
function forget() {
  Object.assign(state, { known: known.nothing(), isWhole: false });
  scriptRead = null;
}

/** Reads the feed from where it was read last to its end. If the register has fewer commands than that, it is read
 *  again from its beginning. */
async function readFeed() {
  for (let hasForgotten = false; ;) {
    const bytes = await feedAfter(state.known.commands.length);
    if (bytes === null && (hasForgotten || state.known.commands.length === 0)) {
      throw new NoAnswer("the register refuses its feed of commands");
    }
    if (bytes === null) {
      hasForgotten = true;
      forget();
    } else if (bytes.length === 0) {
      state.isWhole = true;
      return;
    } else {
      readBy(commandsOf, bytes).forEach((command) => known.learn(state.known, command));
    }
  }
}

/** Reads the script of the chosen ceremony, if it is not that of these commands. */
async function readChosen() {
  const { number } = state;
  const wanted = `${number} ${state.known.commands.length}`;
  if (number === null || !state.known.ceremonies[number]) {
    state.script = null;
  } else if (scriptRead !== wanted) {
    const text = await report(`/ceremonies/${number}/script`);
    if (state.number === number) {
      state.script = text === null ? null : readBy(readScript, text);
      scriptRead = wanted;
    }
  }
}

/** Draws what is there, unless it is drawn already: a choice that is open stays open. */
function draw() {
  const { number, known: { commands }, trouble, lost, isWhole } = state;
  const wanted = JSON.stringify([number, commands.length, trouble, lost, isWhole, scriptRead, dayOfMoment()]);
  if (drawn !== wanted) {
    drawn = wanted;
    changed();
  }
}

/** Asks once for what is new. */
async function ask() {
  try {
    await readFeed();
    compare();
    await readChosen();
    state.trouble = null;
  } catch (fault) {
    if (!(fault instanceof NoAnswer)) {
      throw fault;
    }
    state.trouble = fault.message;
  }
  draw();
}

/** Asks for what is new, after those who asked before. */
export function update() {
  last = last.catch(() => null).then(ask);
  return last;
}

/** Sees that an accepted command is in the feed under its number; if another one is, commands are lost. */
export function checkAccepted(number, key) {
  const there = state.known.commands[number - 1];
  if (there && there.members.key !== key) {
    forget();
    return update();
  }
  return null;
}

/** Chooses a ceremony. */
export function choose(number) {
  Object.assign(state, { number, script: undefined });
  scriptRead = null;
  changed();
}
