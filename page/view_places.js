// The custodians' places: who holds which on a day; appointing, replacing and releasing; and their boxes in safe 2.

import { act } from "./act.js";
import { card, fill, make } from "./dom.js";
import { form, propose } from "./forms.js";
import { boxOf } from "./known.js";
import { PLACES } from "./staff.js";
import { person, state } from "./state.js";

const FACILITIES = [["EAST", "EAST"], ["WEST", "WEST"]];
const PLACE = {
  name: "place", label: "Place", kind: "choice", options: PLACES.map((place) => [place, place]), keep: true,
};
const WHO = {
  name: "who", label: "Initials", capitals: true, example: "EA", list: true,
};

/** The 21 places with their holders and boxes. */
function rows() {
  return PLACES.map((place) => {
    const who = state.places[place];
    const box = boxOf(state.known, place.split("-")[1], place);
    return make("li", { class: "line", id: `place-${place}` }, make("strong", {}, place),
      make("span", { class: "grow" }, who ? `${who} ${person(who).name}`
        : make("span", { class: "hint" }, state.isWhole ? "no holder" : "not known")),
      box ? make("span", {}, `box ${box}`) : null);
  });
}

/** The form that adds a box; it is no act in a ceremony. */
function boxForm() {
  const officers = PLACES.filter((place) => place.startsWith("CO-"));
  return form({
    id: "box-new", text: "Add the box", kind: "",
    fields: [
      { name: "facility", label: "Facility", kind: "choice", options: FACILITIES, keep: true, remember: "facility" },
      { name: "box", label: "Number", kind: "number", example: "101" },
      { name: "place", label: "Place", kind: "choice", options: officers.map((place) => [place, place]), keep: true },
    ],
    send: (members) => act({
      path: "/boxes", members, says: `Add box ${members.box} of ${members.facility} for ${members.place}`,
    }),
  });
}

/** The three forms. */
function forms() {
  const day = (label) => ({ name: "day", label, example: "YYYY-MM-DD", keep: true });
  const appoint = form({
    id: "appoint", text: "Appoint",
    fields: [PLACE, WHO, day("First day")],
    send: ({ place, who, day: on }) => act({
      path: "/custodians", members: { place, who, day: on }, says: `Appoint ${who} to ${place} from ${on}`,
    }),
  });
  const replace = form({
    id: "replace", text: "Replace", kind: "",
    fields: [PLACE, { ...WHO, label: "Initials of the new holder" }, day("First day of the new holder")],
    send: ({ place, who, day: on }) => act({
      path: `/custodians/${place}/replacement`, members: { who, day: on },
      says: `Replace the holder of ${place} by ${who} from ${on}`,
    }),
  });
  const release = form({
    id: "release", text: "Release", kind: "",
    fields: [PLACE, day("First day without a holder")],
    send: ({ place, day: on }) => act({
      path: `/custodians/${place}/release`, members: { day: on }, says: `Release ${place} from ${on}`,
    }),
  });
  return [appoint, replace, release];
}

/** Makes the view. */
export function placesView() {
  const list = make("ul", { class: "lines places", id: "places" });
  const day = make("p", { class: "hint", id: "places-day" });
  const [appoint, replace, release] = forms();
  const node = make("div", {}, make("h1", {}, "Places"),
    make("div", { class: "four" }, card("appoint-card", "Appoint", appoint.node),
      card("replace-card", "Replace", replace.node), card("release-card", "Release", release.node),
      card("box-card", "Add a box to safe 2", boxForm().node)),
    card("holders", "Holders", day, list));
  [appoint, replace].forEach((one) => propose(one, "who", () => state.people.map(({ who, name }) => [who, name])));
  const update = () => {
    fill(day, `On ${state.placesDay}, the day of the moment above. Set that moment by hand to see another day.`);
    fill(list, rows());
  };
  return { node, update };
}
