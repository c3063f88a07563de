// The record of a ceremony, as one would publish it: on the page, on paper, and as a file without scripts.

import { whileBusy } from "./act.js";
import { clockOf } from "./clock.js";
import { button, card, fill, keepSafely, make, show } from "./dom.js";
import { recordOf } from "./record.js";
import { NoAnswer, report } from "./register.js";
import { readScript, readStays } from "./reports.js";
import { seatName } from "./staff.js";
import { isAway, person, state } from "./state.js";

const PAPER = "kcr.paper";
const ACTS = { open: "opened", shut: "shut" };
const sheet = new CSSStyleSheet();
document.adoptedStyleSheets.push(sheet);

/** A table with a caption and these columns. */
function table(name, caption, columns, rows) {
  return make("table", { class: name },
    make("caption", {}, caption),
    make("thead", {}, make("tr", {}, columns.map((text) => make("th", { scope: "col" }, text)))),
    make("tbody", {}, rows));
}

/** Initials and name of somebody who has a seat. */
function seated(who) {
  return [make("b", {}, who), ` ${person(who).name}`];
}

/** A row of somebody who took part. */
function personRow({ who, name, role, stays }, day) {
  return make("tr", {}, make("td", {}, make("b", {}, who)), make("td", {}, name), make("td", {}, role),
    make("td", {}, stays.map(({ since }) => make("div", {}, clockOf(since, day)))),
    make("td", {}, stays.map(({ until }) => make("div", {}, until ? clockOf(until, day) : "still in"))));
}

/** A row of a step: activity, each seat with name and initials, and the time. */
function stepRow(step, day) {
  const seats = step.seats.map((seat, place) => make("div", {}, make("span", { class: "code" }, seat),
    step.seating[place] ? [" ", seated(step.seating[place])] : ""));
  const told = { signed: "", passed: "passed over, not carried out", open: "not done" }[step.state];
  return make("tr", { class: `event-step ${step.state}` }, make("td", {}, step.number), make("td", {}, step.activity),
    make("td", { class: "seats" }, seats),
    make("td", { class: "time" }, step.at ? make("div", {}, clockOf(step.at, day)) : "", told));
}

/** An act on custody in words. */
function custodyText({ act, safe, by, serial, items, spot, item }) {
  const full = items?.length > 0 ? `, with ${items.join(", ")}` : ", without items";
  switch (act) {
    case "item": return [`Item ${item} is added.`];
    case "seal": return [`Bag ${serial} is sealed${full}.`];
    case "take": return [`Bag ${serial} is taken from ${spot} to the table${full}.`];
    case "put": return [`Bag ${serial} is put into ${spot}${full}.`];
    case "cut": return [`Bag ${serial} is cut open${full}.`];
    default: return [`Safe ${safe} is ${ACTS[act]} by `, seated(by), "."];
  }
}

/** A row of an event between the steps. */
function eventRow(kind, mark, told, at, day) {
  return make("tr", { class: `event-${kind}` }, make("td", {}),
    make("td", { colspan: 2 }, make("i", {}, mark), " ", told),
    make("td", { class: "time" }, clockOf(at, day)));
}

/** The rows of what happened, in its order. */
function eventRows({ events, days }) {
  return events.map((event) => {
    if (event.kind === "step") {
      return stepRow(event, days.first);
    }
    if (event.kind === "custody") {
      return eventRow("custody", "Custody.", custodyText(event), event.at, days.first);
    }
    const passed = event.step ? `, step ${event.step} is passed over and not carried out` : "";
    return eventRow("exception", `Exception ${event.number}${passed}.`, event.text, event.at, days.first);
  });
}

/** The custody when the ceremony ended, or now. */
function custodyPart({ custody, cut, facility, state: told }) {
  const rows = custody.bags.map(({ serial, spot, items }) => make("tr", {}, make("td", {}, make("b", {}, serial)),
    make("td", {}, spot), make("td", {}, items.join(", "))));
  return [
    make("h2", {}, told === "closed" ? "Custody at the end" : "Custody so far"),
    make("p", {}, custody.safes.map(({ safe, state: one }) => `Safe ${safe} of ${facility} is ${one}. `)),
    table("bags", `Bags of ${facility}`, ["Serial", "Place", "Items"], rows),
    make("p", {}, `Loose items: ${custody.loose.join(", ") || "none"}. Bags cut in this ceremony: `
      + `${cut.join(", ") || "none"}.`),
  ];
}

/** The lines for signatures: those who had the seats CA and IW, and two more. */
function signaturePart({ steps }) {
  const signed = steps.flatMap((step) => step.seats.map((seat, place) => `${seat} ${step.seating[place] ?? ""}`))
    .filter((one) => /^(CA|IW) [A-Z]/.test(one));
  const rows = [...new Set(signed)].sort().map((one) => one.split(" "));
  return [make("h2", {}, "Signatures"), table("signatures", "Who confirms this record",
    ["Role", "Name", "Signature", "Date"], [...rows, ["", ""], ["", ""]].map(([seat, who]) => make("tr", {},
      make("td", {}, seat ? seatName(seat) : ""), make("td", {}, who ? seated(who) : ""), make("td", {}, ""),
      make("td", {}, ""))))];
}

/** How a reader checks the record. */
function checkPart({ number, commands }) {
  return [make("h2", {}, "How to check this record"),
    make("p", {}, `The register had ${commands.all} accepted commands when this record was made; ${commands.own} of `
      + `them name ceremony ${number}. With the register's file, `, make("code", {}, "kcr verify"), " replays all "
      + "commands, and compares every reply and row. ", make("code", {}, `kcr print --ceremony ${number}`), ", ",
    make("code", {}, `kcr attendance --ceremony ${number}`), ", ", make("code", {}, "kcr custody"), " and ",
    make("code", {}, `kcr journal --ceremony ${number}`), " print what is told here. Times are UTC.")];
}

/** The head of the record. */
function headPart({ number, facility, days, day, state: told, opened, closed }) {
  const held = days.first === days.last ? days.first : `${days.first} to ${days.last}`;
  const ended = closed ? `Closed ${closed}.` : opened ? "Not closed yet: this is no final record." : "";
  return [make("h1", {}, `Ceremony ${number}`),
    make("p", { class: "under" }, `Root zone key ceremony, facility ${facility}, `
      + `${told === "planned" ? `planned for ${day}` : held}`),
    make("p", {}, opened ? `Opened ${opened}. ` : "Not opened yet. ", ended,
      day === days.first ? "" : ` It was planned for ${day}.`)];
}

/** The record as nodes. */
function nodesOf(record) {
  const { people, legend, days } = record;
  return [
    headPart(record),
    make("h2", {}, "Who took part"),
    table("people", "People in the room, by their first entry", ["Initials", "Name", "Role", "In", "Out"],
      people.map((one) => personRow(one, days.first))),
    make("h2", {}, "Codes"),
    table("legend", "Codes of roles and seats", ["Code", "Meaning"], legend.map(([code, told]) => make("tr", {},
      make("td", {}, make("b", {}, code)), make("td", {}, told)))),
    make("h2", {}, "Script, with what happened"),
    table("events", "Steps, exceptions and custody, in their order", ["Step", "Activity", "Seats", "Time (UTC)"],
      eventRows(record)),
    custodyPart(record), signaturePart(record), checkPart(record),
  ];
}

/** The rule of the paper: its size, and the head and foot of each page. */
function pageRule({ number, facility, days }, size) {
  const font = 'font: 8pt "DejaVu Serif", Georgia, serif';
  return `@page { size: ${size}; margin: 20mm 16mm 18mm; `
    + `@top-left { content: "Ceremony ${number}, ${facility}"; ${font}; } `
    + `@top-right { content: "${days.first}"; ${font}; } `
    + `@bottom-right { content: "page " counter(page) " of " counter(pages); ${font}; } }`;
}

/** The record as a whole file: HTML without scripts, with its style. */
async function fileOf(record, size) {
  const style = await (await fetch("record.css")).text();
  const file = document.implementation.createHTMLDocument(`Ceremony ${record.number}, ${record.facility}`);
  file.documentElement.lang = "en";
  const policy = make("meta", { "http-equiv": "Content-Security-Policy",
    content: "default-src 'none'; style-src 'unsafe-inline'" });
  file.head.prepend(make("meta", { charset: "utf-8" }), policy,
    make("meta", { name: "viewport", content: "width=device-width, initial-scale=1" }));
  const look = file.createElement("style");
  look.textContent = `${style}\n${pageRule(record, size)}\n`;
  file.head.append(look);
  file.body.append(make("article", { class: "record" }, nodesOf(record)));
  return `<!DOCTYPE html>\n${new XMLSerializer().serializeToString(file.documentElement)}\n`;
}

/** Hands a file to the user. */
function download(name, text) {
  const address = URL.createObjectURL(new Blob([text], { type: "text/html" }));
  make("a", { href: address, download: name }).click();
  setTimeout(() => URL.revokeObjectURL(address), 60_000);
}

/** The reports of the chosen ceremony, and the record of them; null if the register does not answer. */
async function readRecord() {
  const path = `/ceremonies/${state.number}`;
  try {
    const [script, stays] = [await report(`${path}/script`), await report(`${path}/attendance.csv`)];
    return script === null || stays === null || !state.known.ceremonies[state.number] ? null
      : recordOf(state.known, readScript(script), readStays(stays));
  } catch (fault) {
    if (!(fault instanceof NoAnswer)) {
      throw fault;
    }
    return null;
  }
}

/** Makes the view. */
export function recordView() {
  let record = null;
  let made = null; // the ceremony and the number of commands of the record that is shown
  const size = make("select", { id: "paper-size", change: () => {
    keepSafely(localStorage, PAPER, size.value);
    setPaper();
  } }, ["A4", "Letter"].map((one) => make("option", { value: one }, one)));
  size.value = localStorage.getItem(PAPER) ?? "A4";
  const setPaper = () => record && sheet.replaceSync(pageRule(record, size.value));
  const print = button("print", "Print the record", () => window.print(), "primary");
  const save = button("save-record", "Save it as a file", async () => {
    download(`ceremony-${record.number}-record.html`, await fileOf(record, size.value));
  });
  const told = make("p", { class: "facts", id: "record-told" });
  const paper = make("article", { class: "record", id: "paper" });
  const acts = make("div", { class: "row" }, print, save, make("label", { for: "paper-size" }, "Paper"), size);
  const node = make("div", { class: "of-record" }, card("record-card", "Record", told, acts), paper);
  const draw = () => {
    fill(told, record ? (record.state === "closed" ? "The ceremony is closed: this is its whole record."
      : "The ceremony is not closed: the record is not whole yet.")
      : isAway() ? "Not known: the register does not answer." : "This ceremony is not in the register.");
    show(acts, record !== null);
    fill(paper, record ? nodesOf(record) : []);
    setPaper();
  };
  const update = async () => {
    const wanted = `${state.number} ${state.known.commands.length}`;
    if (state.isWhole && made !== wanted) {
      made = wanted;
      record = await whileBusy(readRecord);
      made = record ? wanted : null;
      draw();
    }
  };
  draw();
  return { node, update };
}
