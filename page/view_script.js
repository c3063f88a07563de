// A ceremony: its next step with who will be recorded, custody, exceptions, opening and closing, and the script as it
// is filled in.

import { actNow, openThings } from "./act.js";
import { clockOf, moment } from "./clock.js";
import { custodyCards } from "./custody_cards.js";
import { card, count, fill, make, pairs, show } from "./dom.js";
import { form } from "./forms.js";
import { fitting, seatingAt } from "./known.js";
import { planCard } from "./plan_check.js";
import { pressButton, rest } from "./press.js";
import { canHave, shortSeats } from "./seating.js";
import { seatName } from "./staff.js";
import { ceremony, inRoom, inRoomAtMoment, isAway, person, state } from "./state.js";

const STATES = { signed: "signed", passed: "passed over, not carried out", open: "to do" };

/** The text that repeats the moment of what is entered. */
function momentText() {
  return make("span", { class: "at" }, "at ", make("time", { "data-moment": true }), " (UTC)");
}

/** Initials and name of a person. */
function named(who) {
  return `${who} ${person(who).name}`;
}

/** A seat of the next step: who will be recorded, and who else fits. */
function seatNode(seat, who, others, isShort) {
  return make("li", { class: isShort ? "nobody" : "" },
    make("strong", {}, seat), make("span", { class: "hint" }, seatName(seat)),
    make("span", { class: "recorded" }, who ? named(who) : others.length > 0 ? `fits: ${others.join(", ")}`
      : "nobody in the room fits"),
    who && others.length > 0 ? make("span", { class: "hint" }, `also fits: ${others.join(", ")}`) : null);
}

/** What a signature of these seats would record at the moment, for the next step and for passing it over: the seating,
 *  the seats that nobody is left for, who fits each seat, and who else could be recorded for it. */
function seatingOf(seats) {
  const people = inRoomAtMoment();
  const at = moment();
  const fits = fitting(state.known, state.number, seats, people, at.slice(0, 10));
  const seating = seatingAt(state.known, state.number, seats, at);
  const short = shortSeats(seats.length, people.length, fits);
  const fitsSeat = seats.map((_, seat) => people.filter((__, person) => fits(seat, person)));
  const isOther = (who, seat) => seats.every((one, place) => one !== seats[seat] || seating[place] !== who)
    && canHave(seat, people.indexOf(who), seats.length, people.length, fits);
  const others = {}; // by the seat's name: seats that are alike have the same
  seats.forEach((seat, place) => {
    others[seat] ??= seating ? fitsSeat[place].filter((who) => isOther(who, place)) : fitsSeat[place];
  });
  return { seating, short, fitsSeat, others: seats.map((seat) => others[seat]) };
}

/** The line that says what will be recorded, or why nothing can be. */
function recordedText(seats, { seating, short, fitsSeat, others }) {
  if (seating) {
    return [`Will be recorded: ${seats.map((seat, place) => `${seat} ${named(seating[place])}`).join(", ")}. `,
      others.flat().length > 0 ? "The register records the first by initials. If somebody else has the seat: who is "
        + "not meant to be recorded waits outside the room, or is not trained for this day." : ""];
  }
  const people = new Set(short.flatMap((seat) => fitsSeat[seat]));
  return [`Cannot be signed: ${short.map((seat) => `seat ${seat + 1} (${seats[seat]})`).join(", ")} `
    + `${short.length === 1 ? "has" : "have"} ${people.size === 0 ? "nobody" : `only ${[...people].join(", ")}`}. `
    + "Let others come in, or pass the step over."];
}

/** A step of the script. */
function stepRow(step, next, day) {
  const isNext = step === next;
  const told = isNext && state.script.state === "open" ? "next" : STATES[step.state];
  const seats = step.seats.map((seat, place) => make("span", { class: "seat" },
    make("b", {}, seat), step.seating[place] ? ` ${step.seating[place]}` : ""));
  return make("li", {
    class: `step ${step.state} ${isNext ? "next" : ""}`, "aria-current": isNext ? "step" : null,
    id: `step-${step.number}`,
  }, make("span", { class: "number" }, step.number), make("span", { class: "activity" }, step.activity),
  make("span", { class: "seats" }, seats),
  make("span", { class: "state" }, told, step.at ? make("time", {}, ` ${clockOf(step.at, day)}`) : ""));
}

/** The exceptions as a list. */
function exceptionRows({ exceptions, day }) {
  return exceptions.map((one) => make("li", { class: "line" }, make("strong", {}, `Exception ${one.number}`),
    make("time", {}, clockOf(one.at, day)), make("span", { class: "grow" }, one.text),
    one.step ? make("span", { class: "state" }, `passed step ${one.step}: not carried out`) : null));
}

/** Signs a step. Then the focus is on the title of what is next. */
async function sign(number) {
  const answer = await actNow(`steps/${number}/signature`, {}, `Sign step ${number}`);
  if (answer && !answer.refused) {
    const next = document.getElementById("next-title");
    (next?.checkVisibility() ? next : document.getElementById("closing-title"))?.focus();
  }
}

/** The card with the next step and the button that signs it. Each step has a button of its own. */
function nextCard() {
  const title = make("h2", { id: "next-title", tabindex: "-1" });
  const seats = make("ul", { class: "fitting", "aria-label": "Seats of the step, with who will be recorded" });
  const told = make("p", { id: "recorded", role: "status" });
  const place = make("span", {});
  const node = make("section", { class: "card next", id: "next", "aria-labelledby": "next-title" },
    make("p", { class: "eyebrow" }, "Next step"), title, seats, told,
    make("div", { class: "row" }, place, momentText()));
  let shown = null;
  const update = () => {
    const { script } = state;
    const step = script?.state === "open" ? script.next : null;
    show(node, Boolean(step));
    if (!step || !ceremony()) {
      shown = null;
      return;
    }
    fill(title, `${step.number}. ${step.activity}`);
    const found = seatingOf(step.seats);
    fill(seats, step.seats.map((seat, number) => seatNode(seat, found.seating?.[number], found.others[number],
      found.short.includes(number))));
    fill(told, recordedText(step.seats, found));
    told.className = found.seating ? "" : "wrong";
    if (shown !== step.number) {
      if (shown !== null) {
        rest(); // it may be another desk that signed
      }
      shown = step.number;
      place.replaceChildren(pressButton("sign", `Sign step ${step.number}`, () => sign(step.number), "primary large"));
    }
  };
  return { node, update };
}

/** The card that opens a planned ceremony. */
function openingCard() {
  const open = pressButton("open", "Open the ceremony", () => actNow("opening", {}, `Open ceremony ${state.number}`),
    "primary large");
  const check = planCard();
  const node = make("div", {}, card("opening", "This ceremony is planned",
    make("p", {}, "It is opened at the moment above, on its day or later. At most one is open in a facility."),
    make("div", { class: "row" }, open, momentText())), check.node);
  return { node, update: () => {
    show(node, state.script?.state === "planned");
    if (!node.hidden) {
      check.update();
    }
  } };
}

/** Writes down an exception; to pass a step over is asked about. */
function exceptional({ text, pass }) {
  const step = state.script?.next;
  const { seating } = pass && step ? seatingOf(["CA", "IW"]) : { seating: null };
  const asks = pass ? {
    title: step ? `Pass over step ${step.number}?` : "Pass over a step?",
    lines: [step ? `${step.number}. ${step.activity}` : "", "It is then not signed, and nothing is taken back.",
      seating ? `Will be recorded: CA ${named(seating[0])}, IW ${named(seating[1])}.` : ""].filter(Boolean),
    yes: "Pass it over",
  } : null;
  return actNow("exceptions", { text, pass },
    pass ? `Pass over step ${step?.number ?? "?"} with an exception` : "Write down an exception", asks);
}

/** The form for an exception. */
function exceptionCard() {
  const made = form({
    id: "exception", text: "Write down the exception", of: `-${state.number}`,
    fields: [
      { name: "text", label: "What happened", kind: "long", wide: true, hint: "1 to 1,000 bytes, on one line." },
      { name: "pass", label: "It passes over the next step", kind: "tick", wide: true,
        hint: "The step is then not signed. Passing it over takes a CA and an IW." },
    ],
    send: exceptional,
  });
  const list = make("ul", { class: "lines", id: "exceptions" });
  const node = card("exception-card", "Exceptions", list, made.node);
  const update = () => {
    show(node, Boolean(state.script) && state.script.state !== "planned");
    show(made.node, state.script?.state === "open");
    fill(list, state.script ? exceptionRows(state.script) : []);
  };
  return { node, update };
}

/** What is still open before a closing, as terms and descriptions. */
function closingRows(script) {
  const steps = script.steps.filter((step) => step.state === "open").length;
  const inside = inRoom().map((stay) => stay.who);
  const open = openThings();
  return [
    ["Steps", steps === 0 ? "all are done" : `${count(steps, "step")} to do`],
    ["Room", inside.length === 0 ? "empty" : `${inside.length} in: ${inside.join(", ")}`],
    ["Custody", open.length === 0 ? "the safes are shut, and no bag is on the table" : open.join(" ")],
  ];
}

/** Closes the ceremony, after a question. */
function closeIt() {
  const { script } = state;
  const rows = closingRows(script).map(([term, told]) => `${term}: ${told}.`.replace("..", "."));
  return actNow("closing", {}, `Close ceremony ${state.number}`, {
    title: `Close ceremony ${state.number}?`, lines: [...rows, "A closed ceremony stays closed."], yes: "Close it",
    no: "Leave it open",
  });
}

/** The card that closes an open ceremony. */
function closingCard() {
  const list = make("div", { id: "open-things" });
  const close = pressButton("close", "Close the ceremony", closeIt);
  const node = card("closing", "Closing", make("p", {}, "What is still open:"), list,
    make("div", { class: "row" }, close, momentText()));
  node.querySelector("h2").tabIndex = -1;
  const update = () => {
    const { script } = state;
    show(node, script?.state === "open");
    if (!node.hidden) {
      fill(list, pairs(closingRows(script)));
      close.className = script.next === null ? "primary" : "";
    }
  };
  return { node, update };
}

/** The safes and the table beside the script, if the ceremony is open. */
function custodyStrip() {
  const cards = custodyCards(true);
  const node = make("section", { class: "strip", id: "strip", "aria-label": "Safes and table" },
    cards.map((one) => one.node));
  const update = () => {
    show(node, state.script?.state === "open");
    cards.forEach((one) => one.update());
  };
  return { node, update };
}

/** The facts of the ceremony in a line. */
function factsOf(script) {
  const done = script.steps.filter((step) => step.state !== "open").length;
  const mark = ceremony()?.mark;
  const since = script.closed ?? script.opened;
  return [`${script.facility}, planned for ${script.day}, `, make("strong", {}, script.state),
    since ? ` since ${since}` : "", script.closed ? `, opened ${script.opened}` : "",
    `. ${done} of ${count(script.steps.length, "step")} done.`, script.state === "open" && mark
      ? ` Nothing before ${clockOf(mark, script.day)} is taken any more.` : ""];
}

/** What is said while there is no script. */
function nothingText() {
  return state.script === null && !isAway() ? "This ceremony is not in the register."
    : "Not known: the register did not answer yet.";
}

/** Makes the view. */
export function scriptView() {
  const title = make("h1", {}, `Ceremony ${state.number}`);
  const facts = make("p", { class: "facts", id: "facts" });
  const progress = make("progress", { "aria-label": "Steps done" });
  const steps = make("ol", { class: "steps", id: "steps" });
  const [opening, next, strip, exceptions, closing] = [openingCard(), nextCard(), custodyStrip(), exceptionCard(),
    closingCard()];
  const scriptCard = card("script", "Script", steps);
  const node = make("div", {}, title, facts, progress, opening.node, next.node, strip.node, scriptCard,
    exceptions.node, closing.node);
  const update = () => {
    const { script } = state;
    [opening, next, strip, exceptions, closing].forEach((one) => one.update());
    show(progress, Boolean(script));
    show(scriptCard, Boolean(script));
    if (!script) {
      fill(facts, nothingText());
      return;
    }
    Object.assign(progress, { max: script.steps.length,
      value: script.steps.filter((step) => step.state !== "open").length });
    fill(facts, factsOf(script));
    fill(steps, script.steps.map((step) => stepRow(step, script.next, script.day)));
  };
  return { node, update };
}
