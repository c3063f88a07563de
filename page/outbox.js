// Exactly once: each command gets a key and is kept in this browser before it is sent, until its answer came.
//
// It is kept in IndexedDB, which says when an entry is on the disk: what a killed browser had sent is there again. Each
// command is an entry of its own, so that two windows never overwrite each other's. A command that both send is
// executed once, since its key is the same.

import { NoAnswer, post } from "./register.js";

const DATABASE = "kcr";
const STORE = "outbox";
const FIRST_PAUSE = 1000;
const MOST_PAUSE = 15000;
const IN_DOUBT = [33, 34, 35];
let opened = null;
let draft = null; // of the form that sends now: its name, and what was sent of it

/** A random key: 32 hexadecimal digits. */
function newKey() {
  const bytes = crypto.getRandomValues(new Uint8Array(16));
  return Array.from(bytes, (byte) => byte.toString(16).padStart(2, "0")).join("");
}

/** The browser's database. */
function database() {
  opened ??= new Promise((resolve, reject) => {
    const asked = indexedDB.open(DATABASE, 1);
    asked.onupgradeneeded = () => asked.result.createObjectStore(STORE, { keyPath: "key" });
    asked.onsuccess = () => resolve(asked.result);
    asked.onerror = () => reject(asked.error);
  });
  return opened;
}

/** Runs a request on the kept commands. Returns its result when it is on the disk. */
async function stored(mode, work) {
  const tied = (await database()).transaction(STORE, mode, { durability: "strict" });
  const asked = work(tied.objectStore(STORE));
  return new Promise((resolve, reject) => {
    tied.oncomplete = () => resolve(asked.result);
    tied.onabort = () => reject(tied.error);
    tied.onerror = () => reject(tied.error);
  });
}

/** Runs the sending of a form. The command that is kept meanwhile is that of its draft. */
export async function sendDraft(of, work) {
  draft = of;
  try {
    return await work();
  } finally {
    draft = null;
  }
}

/** Makes the entry of a command, and keeps it. Errors: an exception if the browser keeps nothing. */
export async function keep(command) {
  const key = newKey();
  const body = JSON.stringify({ key, ...command.members });
  const entry = { key, path: command.path, body, says: command.says, since: Date.now(), draft };
  await stored("readwrite", (all) => all.put(entry));
  return entry;
}

/** The kept commands, the oldest first; none if the browser keeps nothing. */
export async function kept() {
  try {
    const found = await stored("readonly", (all) => all.getAll());
    return found.sort((one, other) => one.since - other.since);
  } catch {
    return [];
  }
}

/** Removes a command whose answer came, or that the user gave up. */
function drop(entry) {
  return stored("readwrite", (all) => all.delete(entry.key));
}

/** Whether a proxy refused the request itself, so that the register never saw it. */
function refusedByProxy(fault) {
  return fault.status !== null && fault.status >= 400 && fault.status < 500;
}

/** Sends a kept command once. Returns the answer, or why there is none yet. */
async function once(entry) {
  try {
    const answer = await post(entry.path, entry.body);
    return answer.refused && IN_DOUBT.includes(answer.body.number)
      ? { reason: null, refusal: answer.body } : { answer };
  } catch (fault) {
    if (!(fault instanceof NoAnswer)) {
      throw fault;
    }
    return refusedByProxy(fault) ? { answer: { refused: true, proxy: fault.status } } : { reason: fault.message };
  }
}

/** Sends a kept command under its key until its answer comes. `wait` tells why there is none, waits for a pause in
 *  milliseconds or for the user, and returns false if the user gives the command up. Returns null then. */
export async function deliver(entry, wait) {
  for (let pause = FIRST_PAUSE; ; pause = Math.min(2 * pause, MOST_PAUSE)) {
    const { answer, reason, refusal } = await once(entry);
    if (answer) {
      await drop(entry);
      return answer;
    }
    if (!(await wait(entry, { reason, refusal }, pause))) {
      await drop(entry);
      return null;
    }
  }
}
