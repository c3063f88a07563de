// Forms for commands: labelled fields, one button, drafts, and the mark at the field that the register refused.
//
// What was typed stands again after another view, a refusal and a reload, until the command was accepted.

import { button, fill, keepSafely, make, show } from "./dom.js";
import { sendDraft } from "./outbox.js";
import { rests } from "./press.js";

const DRAFT = "kcr.draft.";
const REMEMBERED = "kcr.remembered.";
const latest = new Map(); // of each name the fields of the form that was made last

/** The control of a field: a text, a number, a choice, a longer text, or a tick. */
function control(id, field) {
  const common = { id, name: field.name, "aria-describedby": `${id}-hint`, autocomplete: "off", spellcheck: "false" };
  if (field.kind === "choice") {
    return make("select", common, field.options.map(([value, text]) => make("option", { value }, text)));
  }
  if (field.kind === "long") {
    return make("textarea", { ...common, rows: field.rows ?? 3 });
  }
  if (field.kind === "tick") {
    return make("input", { ...common, type: "checkbox" });
  }
  const list = field.list ? `${id}-list` : null;
  return make("input", {
    ...common, type: "text", inputmode: field.kind === "number" ? "numeric" : null, placeholder: field.example, list,
    class: field.capitals ? "capitals" : null,
    autocapitalize: field.kind === "number" ? null : field.capitals ? "characters" : "none",
  });
}

/** A field: label, control, hint and the place for what is wrong. */
function fieldNode(id, field) {
  const input = control(id, field);
  const wrong = make("p", { class: "wrong", id: `${id}-wrong`, hidden: true });
  const hint = make("p", { class: "hint", id: `${id}-hint` }, field.hint ?? "");
  show(hint, Boolean(field.hint));
  const label = make("label", { for: id }, field.label);
  const list = field.list ? make("datalist", { id: `${id}-list` }) : null;
  const parts = field.kind === "tick" ? [make("div", { class: "tick" }, input, label)] : [label, input];
  const node = make("div", { class: `field ${field.wide ? "wide" : ""}` }, parts, hint, wrong, list);
  return { field, input, wrong, list, node };
}

/** The value of a field, as the register wants it. Codes have capitals. */
function valueOf(field, input) {
  if (field.kind === "tick") {
    return input.checked;
  }
  const typed = field.kind === "long" || field.kind === "choice" ? input.value : input.value.trim();
  const text = field.capitals ? typed.toUpperCase() : typed;
  if (field.read) {
    return field.read(text);
  }
  return field.kind === "number" && /^[0-9]+$/.test(text) ? Number(text) : text;
}

/** What a control has, as a draft keeps it. */
function contents(input) {
  return input.type === "checkbox" ? input.checked : input.value;
}

/** What the controls of a form have, by their names. */
function contentsOf(made) {
  return Object.fromEntries(made.map(({ field, input }) => [field.name, contents(input)]));
}

/** Puts what a draft kept into a control. */
function putBack(input, kept) {
  if (input.type === "checkbox") {
    input.checked = kept === true;
  } else if (input.tagName !== "SELECT" || [...input.options].some((option) => option.value === kept)) {
    input.value = kept;
  }
}

/** The draft of a form: what its fields had; null if there is none. */
function draftOf(name) {
  try {
    return JSON.parse(sessionStorage.getItem(DRAFT + name));
  } catch {
    return null;
  }
}

/** Keeps a form's fields as a draft, and the choices that are remembered. */
function keepDraft(name, made) {
  keepSafely(sessionStorage, DRAFT + name, contentsOf(made));
  made.filter(({ field }) => field.remember).forEach(({ field, input }) => {
    keepSafely(localStorage, REMEMBERED + field.remember, input.value);
  });
}

/** Fills a form as it was left. */
function restore(name, made) {
  const kept = draftOf(name);
  for (const { field, input } of made) {
    const old = kept?.[field.name] ?? (field.remember ? localStorage.getItem(REMEMBERED + field.remember) : null);
    if (old !== null && old !== undefined) {
      putBack(input, old);
    }
  }
}

/** Marks the field that a refusal is about, and says what is wrong. */
function mark(made, { body, words }) {
  const found = made.find(({ field }) => field.name === (body.member ?? words?.member));
  if (found) {
    found.input.setAttribute("aria-invalid", "true");
    fill(found.wrong, words?.sentence ?? "The register does not take this.");
    show(found.wrong, true);
    found.input.focus();
  }
}

/** Takes what was sent and accepted out of a form, as it was made last, and out of its draft. What was typed since
 *  stays. */
export function takeOut({ name, sent }) {
  const left = Object.entries(draftOf(name) ?? {}).filter(([field, value]) => sent[field] !== value);
  keepSafely(sessionStorage, DRAFT + name, Object.fromEntries(left));
  const made = latest.get(name) ?? [];
  made.filter(({ field, input }) => contents(input) === sent[field.name]).forEach(({ input }) => {
    if (input.type === "checkbox") {
      input.checked = false;
    } else if (input.tagName !== "SELECT") {
      input.value = "";
      input.dispatchEvent(new Event("input"));
    }
  });
}

/** Makes a form. `fields` have `name` (the member), `label`, `kind` and more; `send` gets the values and returns the
 *  answer, or null; `of` tells apart the drafts of ceremonies; `isLocal` tells that it sends no command. After an
 *  accepted command the fields that do not have `keep` are empty again. */
export function form({ id, fields, text, send, kind = "primary", of = "", isLocal = false }) {
  const made = fields.map((field) => fieldNode(`${id}-${field.name}`, field));
  const name = `${id}${of}`;
  let isTouched = true;
  const submit = async (event) => {
    event.preventDefault();
    if (rests() && !isTouched) {
      return; // the rest of the press that sent it
    }
    made.forEach(({ input, wrong }) => {
      input.removeAttribute("aria-invalid");
      show(wrong, false);
    });
    const values = Object.fromEntries(made.map(({ field, input }) => [field.name, valueOf(field, input)]));
    const draft = { name, sent: contentsOf(made.filter(({ field }) => !field.keep)) };
    const answer = await sendDraft(draft, () => send(values));
    if (answer && !answer.refused) {
      takeOut(draft);
      isTouched = false;
    } else if (answer?.body) {
      mark(made, answer);
    }
  };
  const touch = () => {
    isTouched = true;
    keepDraft(name, made);
  };
  const go = make("button", { type: "submit", id: `${id}-send`, class: kind, "data-command": !isLocal }, text);
  const node = make("form", { id, class: "fields", novalidate: true, submit, input: touch, change: touch },
    made.map((one) => one.node), make("div", { class: "row wide" }, go));
  restore(name, made);
  latest.set(name, made);
  made.forEach(({ input }) => input.addEventListener("input", touch));
  return { node, go, inputs: Object.fromEntries(made.map((one) => [one.field.name, one.input])),
    lists: Object.fromEntries(made.map((one) => [one.field.name, one.list])) };
}

/** Gives a field of a form proposals, values each with a text. They are made when somebody goes to the field. */
export function propose(made, name, options) {
  made.inputs[name].addEventListener("focus", () => {
    fill(made.lists[name], options().map(([value, text]) => make("option", { value }, text)));
  });
}

/** Fills a choice, and keeps what was chosen if it is still there. */
export function offer(select, options) {
  const old = select.value;
  fill(select, options.map(([value, text]) => make("option", { value }, text)));
  if (options.some(([value]) => value === old)) {
    select.value = old;
  }
}

/** Reads a file that somebody chooses; the same file can be chosen again. */
export function fileField(id, label, read) {
  const file = make("input", { type: "file", id, accept: ".csv,text/csv,text/plain", change: async () => {
    const chosen = file.files[0];
    if (chosen) {
      const text = await chosen.text();
      file.value = "";
      read(text, chosen.name);
    }
  } });
  return make("div", { class: "field wide" }, make("label", { for: id }, label), file);
}

/** The words of a field of initials or codes. */
function wordsOf(input) {
  return new Set(input.value.toUpperCase().split(/[\s,;]+/).filter(Boolean));
}

/** A group of toggles that edit a text field of initials or codes: each toggles its word. */
export function toggles(id, input, words, describe) {
  const present = wordsOf(input);
  return words.map((word) => {
    const node = button(`${id}-${word}`, describe(word), () => {
      const chosen = wordsOf(input);
      if (!chosen.delete(word)) {
        chosen.add(word);
      }
      input.value = [...chosen].join(" ");
      input.dispatchEvent(new Event("input"));
    }, "toggle");
    node.setAttribute("aria-pressed", String(present.has(word)));
    return node;
  });
}
