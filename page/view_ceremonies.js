// The list of ceremonies, and the choice of one by its number.

import { card, fill, make, show } from "./dom.js";
import { form } from "./forms.js";
import { isAway, state } from "./state.js";

/** One ceremony of the list. */
function row({ number, facility, day, state: told, closed }) {
  return make("li", { class: `line ${told}` },
    make("a", { id: `ceremony-${number}`, href: `#/script/${number}` }, `Ceremony ${number}`),
    make("span", {}, facility), make("span", {}, day),
    make("span", { class: "state" }, closed ? `closed since ${closed}` : told));
}

/** What a register without ceremonies still needs. */
function guide() {
  const steps = [["#/beginning", "Enter people and their trainings from a list, and the stock that is there."],
    ["#/people", "Enter single people, and train them for their roles."],
    ["#/places", "Appoint crypto officers and share holders, if the script needs them."],
    ["#/planning", "Plan a ceremony with its script."],
    [null, "Open it, let people come in, and sign its steps."]];
  return card("guide", "How to begin", make("ol", { class: "guide" }, steps.map(([href, text]) =>
    make("li", {}, href ? make("a", { href }, text) : text))));
}

/** Makes the view. */
export function ceremoniesView() {
  const list = make("ul", { class: "lines", id: "ceremonies" });
  const choose = form({
    id: "choose", text: "Go to it", kind: "", isLocal: true,
    fields: [{ name: "number", label: "Number of the ceremony", kind: "number", example: "61", keep: true }],
    send: async ({ number }) => { location.hash = `#/script/${number}`; return null; },
  });
  const update = () => {
    const found = Object.values(state.known.ceremonies).sort((one, other) => other.number - one.number);
    const order = ["open", "planned", "closed"];
    found.sort((one, other) => order.indexOf(one.state) - order.indexOf(other.state));
    fill(list, found.length > 0 ? found.map(row) : make("li", { class: "line" },
      isAway() ? "Not known: the register does not answer." : "No ceremony yet."));
    show(begin, found.length === 0 && !isAway());
  };
  const begin = guide();
  const node = make("div", {}, make("h1", {}, "Ceremonies"), begin,
    card("list", "Choose a ceremony", list, choose.node,
      make("p", {}, make("a", { href: "#/planning", id: "plan-one" }, "Plan a ceremony"))));
  return { node, update };
}
