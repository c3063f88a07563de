// Starts the page: the frame, the views by the address behind `#`, and the clock.

import { resume, whileBusy } from "./act.js";
import { differences, isByHand, moment, now, setMoment } from "./clock.js";
import { button, fill, make, show } from "./dom.js";
import { switchButtons } from "./press.js";
import { acceptLoss, changed, choose, isAway, onChange, state, update } from "./state.js";
import { tellTrouble } from "./tell.js";
import { beginningView } from "./view_beginning.js";
import { ceremoniesView } from "./view_ceremonies.js";
import { custodyView } from "./view_custody.js";
import { journalView } from "./view_journal.js";
import { peopleView } from "./view_people.js";
import { placesView } from "./view_places.js";
import { planningView } from "./view_planning.js";
import { recordView } from "./view_record.js";
import { reportsView } from "./view_reports.js";
import { roomView } from "./view_room.js";
import { scriptView } from "./view_script.js";

const VIEWS = [
  ["ceremonies", "Ceremonies", ceremoniesView, false],
  ["script", "Script", scriptView, true],
  ["room", "Room", roomView, true],
  ["custody", "Custody", custodyView, true],
  ["record", "Record", recordView, true],
  ["reports", "Reports", reportsView, true],
  ["people", "People", peopleView, false],
  ["places", "Places", placesView, false],
  ["planning", "Planning", planningView, false],
  ["beginning", "Beginning", beginningView, false],
  ["journal", "Journal", journalView, false],
];
const LOOK_SECONDS = 5;
const AWAY_SECONDS = 2;

const content = document.getElementById("content");
let view = null;
let drawn = null; // the navigation that is drawn: the view and the ceremony

/** The view and the ceremony that the address names: `#/script/61`. */
function address() {
  const [name, number] = location.hash.replace(/^#\/?/, "").split("/");
  const found = VIEWS.find(([id]) => id === name) ?? VIEWS[0];
  return { found, number: /^[1-9][0-9]{0,3}$/.test(number ?? "") ? Number(number) : null };
}

/** Draws the navigation, if it changed; views of a ceremony are links only if one is chosen. */
function drawNavigation(current) {
  const wanted = `${current} ${state.number}`;
  if (drawn === wanted) {
    return;
  }
  drawn = wanted;
  fill(document.getElementById("nav"), VIEWS.map(([id, text, , ofCeremony]) => {
    const href = ofCeremony ? `#/${id}/${state.number}` : `#/${id}`;
    const open = !ofCeremony || state.number !== null;
    return make("a", {
      id: `nav-${id}`, href: open ? href : null, "aria-current": id === current ? "page" : null,
      "aria-disabled": open ? null : "true",
    }, text);
  }));
}

/** The chosen ceremony in a line. */
function chosenText() {
  const { script, number } = state;
  if (number === null) {
    return "No ceremony chosen";
  }
  if (script === undefined) {
    return `Ceremony ${number}: not known yet`;
  }
  return script === null ? `Ceremony ${number} is not in the register`
    : `Ceremony ${number} · ${script.facility} · ${script.day} · ${script.state}`;
}

/** Draws trouble with the register: it does not answer, or has lost commands. */
function drawTrouble() {
  const { trouble, lost, known, isWhole } = state;
  const node = document.getElementById("trouble");
  show(node, trouble !== null || lost !== null);
  if (lost) {
    fill(node, make("div", { class: "told", role: "alert" }, make("strong", {}, "The register lost commands"),
      make("p", {}, `It has ${lost.has} commands. This browser saw command ${lost.had}, and it is not there any more. `
        + "Either an older file was put in its place, or this is another register. Enter nothing before you know.")),
    button("accept-loss", "Go on with the register as it is", acceptLoss));
  } else if (trouble) {
    fill(node, make("div", { class: "told", role: "status" }, make("strong", {}, "The register does not answer"),
      make("p", {}, `${trouble[0].toUpperCase()}${trouble.slice(1)}. The page goes on asking. ${isWhole
        ? `What it shows is as of command ${known.commands.length}.` : "Nothing is known yet."}`)));
  } else {
    fill(node);
  }
}

/** Draws what the state changes in the frame. */
function drawFrame() {
  document.getElementById("chosen").textContent = chosenText();
  drawTrouble();
  drawNavigation(document.body.dataset.view);
  document.body.classList.toggle("away", isAway());
  switchButtons(isAway());
}

/** Shows the view that the address names. */
async function go() {
  const { found: [id, title, makeView, ofCeremony], number } = address();
  const isOther = number !== null && number !== state.number;
  if (isOther) {
    choose(number);
  }
  document.title = `${title}${ofCeremony && state.number ? ` ${state.number}` : ""} · kcr desk`;
  view = ofCeremony && state.number === null ? ceremoniesView() : makeView();
  fill(content, view.node);
  document.body.dataset.view = id;
  view.update();
  scrollTo(0, 0);
  drawFrame();
  if (isOther) {
    await whileBusy(update);
  }
}

/** The field with the moment of what is entered, which runs with the clock until it is set by hand. */
function drawMoment() {
  const input = make("input", {
    id: "at", type: "text", autocomplete: "off", spellcheck: "false", "aria-describedby": "at-state", maxlength: 24,
    input: () => { setMoment(input.value.trim()); tick(); },
    blur: () => tick(),
    change: () => { input.value = moment(); changed(); },
  });
  const told = make("span", { id: "at-state" });
  const clock = make("span", { id: "clock", class: "clock" });
  const back = button("use-clock", "Use the clock", () => {
    setMoment(null);
    changed();
  }, "quiet");
  const tick = () => {
    if (!isByHand() && document.activeElement !== input) {
      input.value = moment();
    }
    told.textContent = !isByHand() ? "runs with the clock"
      : moment() === input.value.trim() ? "set by hand" : `set by hand: ${moment()}`;
    clock.textContent = [...(isByHand() ? [`Clock ${now()}.`] : []), ...differences(state.known.last)].join(" ");
    show(back, isByHand());
    document.body.classList.toggle("by-hand", isByHand());
    document.querySelectorAll("[data-moment]").forEach((node) => { node.textContent = moment(); });
  };
  fill(document.getElementById("moment"),
    make("label", { for: "at" }, "Moment (UTC)"), input, told, back, clock);
  onChange(tick);
  setInterval(tick, 1000);
  tick();
}

/** Goes on asking: for commands of other desks, and for a register that was away. */
async function lookAround() {
  try {
    if (!document.hidden || isAway()) {
      await update();
    }
  } finally {
    setTimeout(lookAround, 1000 * (isAway() ? AWAY_SECONDS : LOOK_SECONDS));
  }
}

/** Starts. */
async function start() {
  drawMoment();
  onChange(() => {
    view?.update();
    drawFrame();
  });
  addEventListener("hashchange", () => go());
  addEventListener("online", () => update());
  document.getElementById("look-again").addEventListener("click", () => whileBusy(update));
  setTimeout(lookAround, 1000 * AWAY_SECONDS);
  await whileBusy(async () => {
    await Promise.all([go(), update()]);
    await resume();
  });
}

addEventListener("unhandledrejection", (event) => {
  tellTrouble("Something is wrong with the page", String(event.reason));
});
document.getElementById("skip").addEventListener("click", (event) => {
  event.preventDefault();
  content.focus();
});
addEventListener("keydown", (event) => {
  if (event.key === "Escape" && !document.getElementById("question").open) {
    document.getElementById("dismiss")?.click();
  }
});
start();
