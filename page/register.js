// Speaks HTTP with the register, and tells its answers from those of a proxy and from none.

import { noteDate } from "./clock.js";

const MOST_SECONDS = 20;

/** There was no answer of the register. `status` is that of a proxy, or null. */
export class NoAnswer extends Error {
  constructor(text, status = null) {
    super(text);
    this.status = status;
  }
}

/** An answer of the register: the status, and its text or its JSON. A refusal has `number` and `refusal`. */
async function ask(path, options) {
  const guard = new AbortController();
  const timer = setTimeout(() => guard.abort(), 1000 * MOST_SECONDS);
  const before = Date.now();
  try {
    const got = await fetch(path, { ...options, cache: "no-store", redirect: "error", signal: guard.signal });
    noteDate(got.headers.get("date"), before, Date.now());
    const bytes = await got.arrayBuffer();
    return { status: got.status, type: got.headers.get("content-type") ?? "", bytes };
  } catch (fault) {
    throw new NoAnswer(guard.signal.aborted ? `no answer in ${MOST_SECONDS} seconds` : "the connection failed");
  } finally {
    clearTimeout(timer);
  }
}

/** The JSON of an answer. It is the register's only if it has one of the two forms. */
function readJson(answer) {
  let body;
  try {
    body = JSON.parse(new TextDecoder().decode(answer.bytes));
  } catch {
    throw new NoAnswer(`a proxy answered with status ${answer.status}`, answer.status);
  }
  const refused = typeof body?.number === "number" && typeof body?.refusal === "string";
  if (answer.status !== 200 && !refused) {
    throw new NoAnswer(`a proxy answered with status ${answer.status}`, answer.status);
  }
  return { status: answer.status, body, refused: answer.status !== 200 };
}

/** Sends a command, whose body is JSON text already. */
export async function post(path, body) {
  const answer = readJson(await ask(path, {
    method: "POST", body, headers: { "content-type": "application/json" },
  }));
  if (!answer.refused && typeof answer.body?.accepted !== "number") {
    throw new NoAnswer("the answer is not the register's", answer.status);
  }
  return answer;
}

/** Throws if the register cannot answer a question now (33 to 35). */
function needAnswer({ status, body }) {
  if (status >= 500) {
    throw new NoAnswer(`the register answers ${body.refusal} (${body.number})`, status);
  }
}

/** What a reader makes of an answer. If it makes nothing of it, the answer is not the register's. */
export function readBy(reader, answer) {
  try {
    return reader(answer);
  } catch {
    throw new NoAnswer("what answers is not the register");
  }
}

/** Asks a question. Returns its JSON; a refusal has `refused`. */
export async function question(path) {
  const answer = readJson(await ask(path, { method: "GET" }));
  needAnswer(answer);
  return answer;
}

/** Asks for the bytes of a report. Returns null if the register refuses it or does not know the path. */
async function bytesOf(path) {
  const answer = await ask(path, { method: "GET" });
  if (answer.status === 200) {
    return new Uint8Array(answer.bytes);
  }
  needAnswer(readJson(answer));
  return null;
}

/** Asks for a report. Returns its text, or null if the register refuses it or does not know the path. */
export async function report(path) {
  const bytes = await bytesOf(path);
  return bytes === null ? null : new TextDecoder().decode(bytes);
}

/** Asks for accepted commands after a number. Returns bytes, or null if the register has fewer commands. */
export function feedAfter(number) {
  return bytesOf(`/commands/${number}`);
}
