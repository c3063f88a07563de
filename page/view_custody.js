// Custody: the two safes, the table and what is loose in a facility, with the acts on them, and where a bag is.

import { custodyCards, facility, isOpenNow } from "./custody_cards.js";
import { card, count, fill, make } from "./dom.js";
import { form } from "./forms.js";
import { question } from "./register.js";
import { isAway, state } from "./state.js";
import { inWords } from "./words.js";

/** The card that asks where a bag is. */
function findCard() {
  const told = make("p", { id: "found-bag", role: "status" });
  const made = form({
    id: "find-bag", text: "Where is it?", kind: "",
    fields: [{ name: "serial", label: "Serial of a bag", capitals: true, example: "BB51184287", keep: true }],
    send: async ({ serial }) => {
      const { body, refused } = await question(`/bags/${serial}`);
      const spot = body.spot === "spent" ? "spent" : `at ${body.spot}`;
      fill(told, refused ? inWords(body).sentence
        : `${serial} is ${spot}, with ${body.items.join(", ") || "no items"}.`);
      return null;
    },
  });
  return card("find", "Find a bag", made.node, told);
}

/** The bags that are spent, as a line. */
function spentText() {
  const found = state.custody.bags.filter((bag) => bag.spot === "spent");
  return found.length > 0 ? `${count(found.length, "bag")} spent: ${found.map((bag) => bag.serial).join(", ")}.`
    : "No bag is spent.";
}

/** Makes the view. */
export function custodyView() {
  const facts = make("p", { class: "facts" });
  const spent = make("p", { class: "hint", id: "spent" });
  const cards = custodyCards();
  const picture = make("div", { class: "picture" }, cards.map((one) => one.node));
  const node = make("div", {}, make("h1", {}, "Custody"), facts, picture, spent, findCard());
  const update = () => {
    fill(facts, !state.isWhole ? "Not known: the register did not answer yet."
      : `Facility ${facility()}.${isOpenNow() ? "" : " No ceremony is open here, so nothing moves."}`
        + `${isAway() ? " This is as it was when the register last answered." : ""}`);
    picture.hidden = !state.isWhole;
    cards.forEach((one) => one.update());
    fill(spent, state.isWhole ? spentText() : "");
  };
  return { node, update };
}
