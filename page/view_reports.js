// Reports: the annotated script, the attendance as table and picture, the custody; each as a download.

import { whileBusy } from "./act.js";
import { clockOf } from "./clock.js";
import { card, fill, make, show } from "./dom.js";
import { pictureOf } from "./picture.js";
import { NoAnswer, report } from "./register.js";
import { isAway, state } from "./state.js";

/** A link that downloads a report of the register. */
function download(id, path, name) {
  return make("a", { id, class: "button", href: path, download: name }, `Download ${name}`);
}

/** The attendance as a table. */
function stayTable(stays, day) {
  return make("table", { class: "rows" },
    make("thead", {}, make("tr", {}, ["Who", "Name", "In", "Out"].map((text) => make("th", { scope: "col" }, text)))),
    make("tbody", {}, stays.map((stay) => make("tr", {}, make("td", {}, stay.who), make("td", {}, stay.name),
      make("td", {}, clockOf(stay.since, day)), make("td", {}, stay.until ? clockOf(stay.until, day) : "still in")))));
}

/** The custody report; empty if the register does not answer. */
async function custodyText() {
  try {
    return await report("/custody") ?? "";
  } catch (fault) {
    if (!(fault instanceof NoAnswer)) {
      throw fault;
    }
    return "";
  }
}

/** Makes the view. */
export function reportsView() {
  const number = state.number;
  const script = make("pre", { id: "script-text" });
  const picture = make("div", { class: "scroll", id: "stays-picture", tabindex: "0",
    "aria-label": "Who was in the room" });
  const table = make("div", { class: "scroll", id: "stays-table" });
  const custody = make("pre", { id: "custody-text" });
  const told = make("p", { class: "facts", id: "reports-told" });
  const links = {
    script: download("get-script", `/ceremonies/${number}/script`, `ceremony-${number}-script.txt`),
    stays: download("get-attendance", `/ceremonies/${number}/attendance.csv`, `ceremony-${number}-attendance.csv`),
    custody: download("get-custody", "/custody", "custody.txt"),
  };
  const cards = make("div", {},
    card("stays-card", "Attendance", make("div", { class: "row" }, links.stays), picture,
      make("p", { class: "hint" }, "A pale bar is somebody who is still in."), table),
    card("script-card", "Annotated script", make("div", { class: "row" }, links.script), script),
    card("custody-report", "Custody", make("div", { class: "row" }, links.custody), custody));
  const node = make("div", { class: "reports" }, make("h1", {}, "Reports"), make("p", { class: "facts" }, "The reports "
    + "as the register prints them. ", make("a", { href: `#/record/${number}` }, "The record"),
  " is the one to print and to publish."), told, cards);
  let read = null;
  const update = async () => {
    fill(told, state.script === undefined ? "Not known: the register did not answer yet."
      : state.script === null && !isAway() ? "This ceremony is not in the register." : "");
    show(cards, Boolean(state.script));
    fill(script, state.script?.text ?? "");
    fill(picture, pictureOf(state.stays, `Who was in the room of ceremony ${number}`));
    fill(table, stayTable(state.stays, state.script?.day));
    if (state.isWhole && read !== state.known.commands.length) {
      read = state.known.commands.length;
      fill(custody, await whileBusy(custodyText));
    }
  };
  return { node, update };
}
