// Who fits which seat, by trainings and the holders of custodians' places. The register decides; this only shows.

export const ROLES = ["CA", "IW", "SA", "SSC1", "SSC2", "RKOS", "SW"];
export const ROLE_NAMES = {
  CA: "ceremony administrator", IW: "internal witness", SA: "system administrator",
  SSC1: "controller of safe 1", SSC2: "controller of safe 2", RKOS: "operations security", SW: "staff witness",
  CO: "crypto officer", RKSH: "recovery key share holder",
};

/** The 21 places, in the register's order. */
export const PLACES = ["CO-EAST", "CO-WEST", "RKSH"]
  .flatMap((kind) => Array.from({ length: 7 }, (_, place) => `${kind}-${place + 1}`));

/** Whether a person is trained for a role on a day. */
export function isTrained(person, role, day) {
  return (person?.roles ?? []).some((training) => training.role === role && training.from <= day
    && day <= training.until && !(training.withdrawn <= day));
}

/** The roles that a person is trained for on a day. */
function rolesOn(person, day) {
  return ROLES.filter((role) => isTrained(person, role, day));
}

/** The place that a person holds, from the places of a day; null if none. */
export function placeOf(who, places) {
  return PLACES.find((place) => who && places[place] === who) ?? null;
}

/** Whether a person fits a seat in a facility. */
export function fits(seat, person, facility, day, places) {
  const [kind, number] = seat.split("/");
  if (kind !== "CO" && kind !== "RKSH") {
    return isTrained(person, seat, day);
  }
  const place = placeOf(person?.who, places);
  const wanted = kind === "CO" ? `CO-${facility}-` : "RKSH-";
  return place !== null && place.startsWith(wanted) && (!number || place === wanted + number);
}

/** What a person is on a day, in words: roles, place, or visitor. */
export function standing(person, day, places) {
  const place = placeOf(person?.who, places);
  const found = [...rolesOn(person, day), ...(place ? [place] : [])];
  return found.length > 0 ? found.join(", ") : "visitor";
}

/** The initials of a text: capitals, with blanks or commas between them. */
export function initialsOf(text) {
  return text.toUpperCase().split(/[\s,;]+/).filter((who) => who !== "");
}

/** The seat in words, as `CA, ceremony administrator`. */
export function seatName(seat) {
  const [kind, number] = seat.split("/");
  return `${ROLE_NAMES[kind] ?? kind}${number ? `, place ${number}` : ""}`;
}
