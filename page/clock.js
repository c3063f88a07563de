// Moments and days: the browser's UTC clock, that of the proxy, the moment that is entered, and what is doubtful.

const FORM = /^(\d{4})-(\d{2})-(\d{2})T(\d{2}):(\d{2}):(\d{2})Z$/;
const SHORT = /^([01]\d|2[0-3]):([0-5]\d)(?::([0-5]\d))?$/;
const MOST_SECONDS = 300;
const TOLD_SECONDS = 5;
let byHand = null;
let proxyAhead = null; // seconds by which the proxy's clock is ahead of the browser's
const settledDays = new Set(); // "ceremony day": asked about once and confirmed

/** A moment, in milliseconds since 1970, as the register writes moments. */
function written(milliseconds) {
  return new Date(milliseconds).toISOString().slice(0, 19) + "Z";
}

/** The clock's moment. */
export function now() {
  return written(Date.now());
}

/** The moment of what is entered: the one set by hand, or the clock's. */
export function moment() {
  return byHand ?? now();
}

/** Whether the moment was set by hand. */
export function isByHand() {
  return byHand !== null;
}

/** Sets the moment by hand: whole, or as 20:45 or 20:45:10 of the clock's day. Null goes back to the clock. */
export function setMoment(text) {
  const found = text === null ? null : SHORT.exec(text);
  byHand = found ? `${now().slice(0, 10)}T${found[1]}:${found[2]}:${found[3] ?? "00"}Z` : text;
}

/** The day of the moment, or today's if the moment is malformed. */
export function dayOfMoment() {
  return FORM.test(moment()) ? moment().slice(0, 10) : now().slice(0, 10);
}

/** The seconds of a moment since 1970; NaN if it is malformed. */
export function seconds(text) {
  return FORM.test(text) ? Date.parse(text) / 1000 : NaN;
}

/** A length of time in words. */
export function span(length) {
  const minutes = Math.floor(length / 60);
  if (length < 120) {
    return `${length} s`;
  }
  if (minutes < 120) {
    return `${minutes} min`;
  }
  if (minutes < 2 * 1440) {
    return `${Math.floor(minutes / 60)} h ${minutes % 60} min`;
  }
  return `${Math.floor(minutes / 1440)} days`;
}

/** The time of day of a moment, with its day if that is another day. */
export function clockOf(text, day) {
  return text.slice(0, 10) === day ? text.slice(11, 19) : `${text.slice(0, 10)} ${text.slice(11, 19)}`;
}

/** Notes the `Date` of an answer, which was asked for and came at these milliseconds of the clock. */
export function noteDate(text, before, after) {
  const told = Date.parse(text ?? "");
  if (!Number.isNaN(told)) {
    proxyAhead = Math.round((told + 500 - (before + after) / 2) / 1000);
  }
}

/** The length of time between two moments, in words: `3 min before`. */
function apart(off, what) {
  return `${span(Math.abs(off))} ${off < 0 ? "before" : "after"} ${what}`;
}

/** By how much the clock differs from the proxy's and from the last moment in the register, as sentences. */
export function differences(last) {
  const found = [];
  const off = last === null ? 0 : seconds(now()) - seconds(last);
  if (proxyAhead !== null && Math.abs(proxyAhead) >= TOLD_SECONDS) {
    found.push(`This clock is ${span(Math.abs(proxyAhead))} ${proxyAhead > 0 ? "behind" : "ahead of"} the proxy's.`);
  }
  if (last !== null) {
    found.push(off < 0 ? `The last moment in the register, ${last}, is ${span(-off)} after this clock.`
      : `Last moment in the register: ${last}, ${span(off)} ago.`);
  }
  return found;
}

/** What is doubtful about a moment by the clocks. */
function doubtsOfClocks(at) {
  const own = seconds(at) - seconds(now());
  const found = [];
  if (Math.abs(own) > MOST_SECONDS) {
    found.push(`It is ${apart(own, `the clock, which shows ${now()}`)}.`);
  }
  if (proxyAhead !== null && Math.abs(own - proxyAhead) > MOST_SECONDS) {
    const shown = written(Date.now() + 1000 * proxyAhead);
    found.push(`It is ${apart(own - proxyAhead, `the proxy's clock, which shows ${shown}`)}.`);
  }
  if (own > 0) {
    found.push("It is in the future. The ceremony then takes nothing earlier than this moment.");
  }
  return found;
}

/** What is doubtful about a moment in a ceremony, as sentences. `last` is the last moment in the register. A malformed
 *  moment is left to the register. */
export function doubts(at, ceremony, last) {
  if (Number.isNaN(seconds(at))) {
    return [];
  }
  const found = doubtsOfClocks(at);
  const day = at.slice(0, 10);
  const off = last === null ? 0 : seconds(at) - seconds(last);
  if (off < -MOST_SECONDS) {
    found.push(`It is ${apart(off, `the last moment in the register, ${last}`)}.`);
  }
  if (ceremony?.day && day !== ceremony.day && !settledDays.has(`${ceremony.number} ${day}`)) {
    found.push(`Its day is ${day}. Ceremony ${ceremony.number} is planned for ${ceremony.day}.`);
  }
  return found;
}

/** Remembers that a ceremony goes on on this day, until the page is loaded again. */
export function acceptDay(at, ceremony) {
  if (ceremony) {
    settledDays.add(`${ceremony.number} ${at.slice(0, 10)}`);
  }
}
