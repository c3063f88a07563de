// The rules of a script, row by row, so that the page can say which rule a row breaks. The register decides.

import { rowsOf } from "./csv.js";

const MOST_STEPS = 400;
const MOST_BYTES = 500;
const MOST_SEATS = 16;
const HEADER = ["step", "activity", "seats"];
const ITEM = /^(?:(CA|IW|SA|SSC1|SSC2|RKOS|SW|CO|RKSH)(?:\*([2-7]))?|(?:CO|RKSH)\/[1-7])$/;

/** How many bytes a text has. */
export function bytesOf(text) {
  return new TextEncoder().encode(text).length;
}

/** What is wrong with a text of one line and at most `most` bytes; null if nothing is. */
export function faultOfLine(text, most) {
  const bytes = bytesOf(text);
  if (bytes === 0) {
    return "it is empty";
  }
  if (bytes > most) {
    return `it has ${bytes} bytes, and at most ${most} are taken`;
  }
  // eslint-disable-next-line no-control-regex
  return /[\u0000-\u001F\u007F]/.test(text) ? "it has a line end, a tab or another control character" : null;
}

/** What is wrong with a seat text; null if nothing is. */
function faultOfSeats(text) {
  let seats = 0;
  for (const item of text.split(";")) {
    const found = ITEM.exec(item);
    if (!found) {
      return `'${item}' is no seat: a role, CO, RKSH, CO/1 to CO/7, RKSH/1 to RKSH/7; CA*2 to CA*7 for several`;
    }
    seats += Number(found[2] ?? 1);
  }
  return seats > MOST_SEATS ? `${seats} seats, and a step has at most ${MOST_SEATS}` : null;
}

/** What is wrong with the row of a step; null if nothing is. */
function faultOfStep(row, number) {
  const [step, activity, seats] = row;
  if (row.length !== 3) {
    return `it has ${row.length} ${row.length === 1 ? "field" : "fields"}, and a step has three; a text with a comma `
      + "is in quotes";
  }
  if (number > MOST_STEPS) {
    return `a script has at most ${MOST_STEPS} steps`;
  }
  if (step !== String(number)) {
    return `the step's number is ${number}, not '${step}'`;
  }
  const fault = faultOfLine(activity, MOST_BYTES);
  return fault ? `the activity: ${fault}` : faultOfSeats(seats);
}

/** The first row of a script that breaks a rule, from 1, and which rule; null if none does. */
export function faultOfScript(text) {
  const rows = rowsOf(text);
  if (rows.length === 0 || text.startsWith("\uFEFF\uFEFF") || rows[0].join() !== HEADER.join()
    || rows[0].length !== HEADER.length) {
    return { row: 1, why: `the first row is ${HEADER.join(",")}` };
  }
  if (rows.length === 1) {
    return { row: 2, why: "there is no step" };
  }
  for (let number = 1; number < rows.length; number += 1) {
    const why = faultOfStep(rows[number], number);
    if (why) {
      return { row: number + 1, why };
    }
  }
  return null;
}
