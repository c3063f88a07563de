// Answers in words: the sentence of sentences.js for the command, or else that of refusals.js, which docs/REFUSALS.md
// has too.

import { now } from "./clock.js";
import { readPath } from "./paths.js";
import { CARRIED, REFUSALS } from "./refusals.js";
import { ROWS, rowOf } from "./sentences.js";

/** A sentence with the values of the refusal in place of its members' names. */
function filled(sentence, body) {
  return sentence.replace(/`([^`]+)`/g, (_, name) => {
    const value = body[name];
    return Array.isArray(value) ? value.join(", ") : String(value ?? name);
  });
}

/** The sentence for a value that a refusal carries, if it has one. `path` is that of the command. */
function carried(body, path) {
  if (body.number === 31) {
    return CARRIED[31][body.part];
  }
  if (body.number !== 30) {
    return null;
  }
  if (path.includes("/safes/")) {
    return CARRIED[30].initials;
  }
  return CARRIED[30][body.who === "CA" ? "CA" : "place"];
}

/** What the sentences need to know of a command that was refused. */
function situation(body, { path, members }, known) {
  const { kind, ...parts } = readPath(path);
  const day = (members.at ?? now()).slice(0, 10);
  const ceremony = known.ceremonies[parts.ceremony ?? members.ceremony] ?? null;
  return { body, kind, parts, members, known, ceremony, day, on: day === now().slice(0, 10) ? "today" : `on ${day}` };
}

/** The sentence of a refusal of a command, the field that it is about, and its row; null if the table has none. */
export function ofCommand(body, command, known) {
  const it = situation(body, command, known);
  const row = rowOf(it);
  return row ? { sentence: row[3](it), member: row[4], row: ROWS.indexOf(row) } : null;
}

/** A refusal in words: its title, what is so, what to do, and the field that it is about. `command` has the path and
 *  the members; without what is known the words are those of every command. */
export function inWords(body, command = { path: "", members: {} }, known = null) {
  const [, word, , sentence, advice] = REFUSALS.find(([number]) => number === body.number)
    ?? [body.number, body.refusal, 0, "The register refused.", ""];
  const own = known ? ofCommand(body, command, known) : null;
  return {
    title: `Refused: ${word} (${body.number})`,
    sentence: own?.sentence ?? filled(sentence, body),
    more: own ? null : carried(body, command.path),
    advice: own ? null : filled(advice, body),
    member: own?.member ?? null,
  };
}

/** An accepted command in words. `says` is what the command was for. */
export function acceptedInWords(body, says) {
  const told = [];
  if (body.exception) {
    told.push(`It is exception ${body.exception}.`);
  }
  if (body.seating) {
    told.push(`Step ${body.step} has the seating ${body.seating.join(", ")}.`);
  }
  return { title: `Accepted as number ${body.accepted}`, sentence: `${says}: done.`, more: told.join(" ") };
}
