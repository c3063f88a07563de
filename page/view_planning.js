// Planning: a script is pasted or chosen as a file, sent, and shown with the row that breaks a rule.

import { act } from "./act.js";
import { rowsOf } from "./csv.js";
import { card, count, fill, make, show } from "./dom.js";
import { fileField, form } from "./forms.js";
import { faultOfScript } from "./script_rules.js";

const FACILITIES = [["EAST", "EAST"], ["WEST", "WEST"]];
const HEADER = "step,activity,seats";

/** A row of the script as it was read; the row that breaks a rule has the refusal below it. */
function rowNode(row, number, wrong) {
  const bad = wrong && wrong.row === number;
  return [
    make("tr", { class: bad ? "wrong-row" : "", id: `row-${number}` }, make("th", { scope: "row" }, number),
      [0, 1, 2].map((place) => make("td", {}, row[place] ?? "")), make("td", {}, row.slice(3).join(","))),
    bad ? make("tr", { class: "wrong-row" }, make("td", { colspan: 5 },
      make("p", { class: "wrong", role: "alert", id: "wrong-row" }, wrong.sentence))) : null,
  ];
}

/** The table of the rows. */
function tableOf(rows, wrong) {
  const extra = wrong && wrong.row > rows.length ? [rowNode(["(missing)"], wrong.row, wrong)] : [];
  return make("table", { class: "rows" },
    make("thead", {}, make("tr", {}, ["Row", "Step", "Activity", "Seats", ""].map((text) =>
      make("th", { scope: "col" }, text)))),
    make("tbody", {}, rows.map((row, place) => rowNode(row, place + 1, wrong)), extra));
}

/** The form: number, facility, day, script. */
function planForm(onAnswer) {
  return form({
    id: "plan", text: "Plan the ceremony",
    fields: [
      { name: "number", label: "Number", kind: "number", example: "61" },
      { name: "facility", label: "Facility", kind: "choice", options: FACILITIES, keep: true,
        remember: "facility" },
      { name: "day", label: "Day (the first on which it may be opened)", example: "YYYY-MM-DD", keep: true },
      { name: "script", label: "Script as comma-separated text", kind: "long", rows: 8, wide: true,
        hint: `The first row is ${HEADER}. Seats have ; between them, as CA;IW;CO*3.` },
    ],
    send: async (members) => {
      const answer = await act({
        path: "/ceremonies", members, says: `Plan ceremony ${members.number} for ${members.day}`,
      });
      onAnswer(answer, members);
      return answer;
    },
  });
}

/** Makes the view. */
export function planningView() {
  const rows = make("div", { class: "scroll", id: "rows", tabindex: "0", "aria-label": "Rows of the script" });
  const told = make("p", { class: "hint", id: "rows-told" });
  const next = make("p", {});
  let wrong = null;
  const draw = () => {
    const found = rowsOf(made.inputs.script.value);
    const fault = found.length === 0 ? null : faultOfScript(made.inputs.script.value);
    const shown = wrong ?? (fault && { row: fault.row, sentence: `Row ${fault.row}: ${fault.why}.` });
    fill(told, found.length === 0 ? "Nothing is pasted yet." : `${count(found.length, "row")}, the first with the `
      + `names. ${fault ? "One breaks a rule." : "All are as they must be."} The register judges them when you plan.`);
    show(rows, found.length > 0);
    fill(rows, tableOf(found, shown));
    if (wrong) {
      document.getElementById("wrong-row")?.scrollIntoView({ block: "center" });
    }
  };
  const made = planForm((answer, members) => {
    wrong = answer?.body?.number === 19 ? { row: answer.body.row, sentence: answer.words.sentence } : null;
    if (answer && !answer.refused) {
      const href = `#/script/${members.number}`;
      fill(next, make("a", { id: "go-planned", href }, `Go to ceremony ${members.number}`));
    } else {
      draw();
    }
  });
  made.inputs.script.addEventListener("input", () => { wrong = null; draw(); });
  const choose = fileField("plan-file", "Or choose a file", (text) => {
    made.inputs.script.value = text;
    made.inputs.script.dispatchEvent(new Event("input"));
  });
  made.node.insertBefore(choose, made.node.lastChild);
  const node = make("div", {}, make("h1", {}, "Planning"), card("plan-card", "Plan a ceremony", made.node, next),
    card("rows-card", "Rows", told, rows));
  draw();
  return { node, update: () => {} };
}
