// The one way by which the page sends commands: doubts are asked about, the command is kept, sent, answered and told.

import { acceptDay, clockOf, doubts, moment, now, setMoment } from "./clock.js";
import { takeOut } from "./forms.js";
import { onTable, openSafes } from "./known.js";
import { deliver, keep, kept } from "./outbox.js";
import { rest } from "./press.js";
import { ceremony, checkAccepted, isAway, state, update } from "./state.js";
import { confirm, dismiss, tellAccepted, tellRefused, tellTrouble, wait } from "./tell.js";
import { inWords } from "./words.js";

const content = document.getElementById("content");
let underWay = 0;
let sending = false;

/** Counts what is under way, and marks the page as busy or as ready. */
function countBusy(change) {
  underWay += change;
  content.setAttribute("aria-busy", String(underWay > 0));
}

/** Runs something while the page is marked as busy. */
export async function whileBusy(work) {
  countBusy(1);
  try {
    return await work();
  } finally {
    countBusy(-1);
  }
}

/** Asks for what an answer changed, and tells it. Returns the answer, a refusal with its words. */
async function settle(command, answer, key) {
  if (answer && !answer.refused) {
    rest();
    setMoment(null);
    tellAccepted(answer.body, command.says);
    await update();
    await checkAccepted(answer.body.accepted, key);
    return answer;
  }
  await update();
  if (answer === null) {
    tellTrouble("Given up", `${command.says}: look whether it was done.`);
  } else if (answer.proxy) {
    tellTrouble(`Not sent on: a proxy answered ${answer.proxy}`, `${command.says}: not done.`,
      "The register did not see it. You may lack the right to write, or the request was too large.");
  } else {
    const words = inWords(answer.body, command, state.known);
    tellRefused(words, command.says);
    return { ...answer, words };
  }
  return answer;
}

/** Asks the user about a doubtful moment. Returns whether the command is to be sent. */
async function sureOfMoment(command) {
  const { at } = command.members;
  const of = state.known.ceremonies[command.ceremony];
  const found = at === undefined ? [] : doubts(at, of, state.known.last);
  if (found.length === 0) {
    return true;
  }
  const box = found.some((line) => line.startsWith("Its day")) ? `Do not ask about ${at.slice(0, 10)} again` : null;
  const { yes, box: ticked } = await confirm(`Is ${at} right?`, [
    `${command.says}?`, ...found, "The register has no clock. It takes what you send, and nothing is taken back."],
  "Send it with this moment", "Do not send", box);
  if (yes && ticked) {
    acceptDay(at, of);
  }
  return yes;
}

/** Asks what a command asks about first, then about its moment. */
async function sure(command) {
  const { asks } = command;
  if (asks && !(await confirm(asks.title, asks.lines, asks.yes, asks.no ?? "Do not send")).yes) {
    return false;
  }
  return sureOfMoment(command);
}

/** Sends a command that may be doubtful. */
async function send(command) {
  dismiss();
  if (!(await sure(command))) {
    tellTrouble("Not sent", `${command.says}: not done.`);
    return null;
  }
  let entry;
  try {
    entry = await keep(command);
  } catch {
    tellTrouble("Not sent", "This browser keeps nothing (IndexedDB).",
      "So a lost answer could not be asked for again.");
    return null;
  }
  const answer = await deliver(entry, wait);
  return settle(command, answer, entry.key);
}

/** Sends a command: `path`, `members`, `says` for people, `ceremony` if it is an act, and what it `asks` first. Returns
 *  the answer, a refusal with its `words`; null if it was not sent or has none. */
export async function act(command) {
  if (sending) {
    return null;
  }
  if (isAway()) {
    tellTrouble("Not sent", `${command.says}: not done. The register does not answer now.`);
    return null;
  }
  sending = true;
  try {
    return await whileBusy(() => send(command));
  } finally {
    sending = false;
  }
}

/** Sends an act of the chosen ceremony at the moment that is shown. */
export function actNow(path, members, says, asks = null) {
  const at = moment();
  const told = `${says} at ${clockOf(at, now().slice(0, 10))}`;
  return act({
    path: `/ceremonies/${state.number}/${path}`, members: { ...members, at }, says: told, ceremony: state.number, asks,
  });
}

/** What is open in the ceremony's facility, as sentences: safes, and bags on the table. */
export function openThings() {
  const facility = ceremony()?.facility;
  const bags = onTable(state.known, facility);
  return [...openSafes(state.known, facility).map((safe) => `Safe ${safe} is open.`),
    ...(bags.length > 0 ? [`On the table: ${bags.join(", ")}.`] : [])];
}

/** Asks again for the answers of all kept commands, as after the page was loaded again. Others wait until then. */
export async function resume() {
  sending = true;
  try {
    for (const entry of await kept()) {
      const { key, ...members } = JSON.parse(entry.body);
      const answer = await deliver(entry, wait);
      if (entry.draft && answer && !answer.refused) {
        takeOut(entry.draft);
      }
      await settle({ path: entry.path, members, says: `${entry.says} (asked again)` }, answer, key);
    }
  } finally {
    sending = false;
  }
}
