// Reads the register's reports: the annotated script and the attendance.

import { rowsOf } from "./csv.js";

const HEAD = /^Ceremony (\d+) (EAST|WEST) (\S+) (planned|open|closed)$/;
const STEP = /^(\d+) (?:(signed|passed) (\S+)|open) (.*)$/;
const EXCEPTION = /^Exception (\d+) (\S+) (?:step (\d+) )?(.*)$/;

/** The seats of a seat text, one by one: `CO*2` is two seats. */
export function seatsOf(text) {
  return text.split(";").flatMap((part) => {
    const [seat, times] = part.split("*");
    return Array(times ? Number(times) : 1).fill(seat);
  });
}

/** Adds the line below a step: its seats as they are written, or a seat and who filled it. */
function addSeat(step, line) {
  const [seat, who] = line.trim().split(" ");
  if (step.state !== "open") {
    step.seats.push(seat);
    step.seating.push(who);
  } else {
    step.seats = seatsOf(who);
  }
}

/** An exception. It passed a step if that step was passed over at its moment; else `step 3` belongs to its text. */
function exceptionOf(script, [, number, at, step, text]) {
  const passed = step !== undefined && script.steps.some((one) => one.number === Number(step)
    && one.state === "passed" && one.at === at);
  const told = step === undefined || passed ? text : `step ${step} ${text}`;
  return { number: Number(number), at, step: passed ? Number(step) : null, text: told };
}

/** Adds a line of the script's own level. */
function addLine(script, line) {
  const exception = EXCEPTION.exec(line);
  const step = STEP.exec(line);
  if (step) {
    script.steps.push({
      number: Number(step[1]), state: step[2] ?? "open", at: step[3] ?? null, activity: step[4], seats: [], seating: [],
    });
  } else if (exception) {
    script.exceptions.push(exceptionOf(script, exception));
  } else if (line.startsWith("Opened ")) {
    script.opened = line.slice(7);
  } else if (line.startsWith("Closed ")) {
    script.closed = line.slice(7);
  }
}

/** The annotated script as data. `next` is the first step that is not done, or null. */
export function readScript(text) {
  const lines = text.split("\n");
  const head = HEAD.exec(lines[0]);
  const script = {
    number: Number(head[1]), facility: head[2], day: head[3], state: head[4], opened: null, closed: null, steps: [],
    exceptions: [], text,
  };
  for (const line of lines.slice(1)) {
    if (line.startsWith("  ")) {
      addSeat(script.steps.at(-1), line);
    } else {
      addLine(script, line);
    }
  }
  script.next = script.steps.find((step) => step.state === "open") ?? null;
  return script;
}

/** The stays of an attendance: who, name, since and until, which is null for somebody who is in. */
export function readStays(text) {
  return rowsOf(text).slice(1).map(([who, name, since, until]) => ({ who, name, since, until: until || null }));
}
