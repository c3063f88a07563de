// The search that fills the seats of a step, as the register does it: of all seatings the first by initials.
//
// A person sits on at most one seat. `fits(seat, person)` tells by positions whether a person may have a seat. People
// are in the order of their initials, so the first seating is the one with the least positions, seat by seat.

/** Gives a seat to a person, and moves others if that helps. `holders` has the seat of each person. */
function settle(seat, people, fits, holders, tried) {
  for (let person = 0; person < people; person += 1) {
    if (!tried.has(person) && fits(seat, person)) {
      tried.add(person);
      if (!holders.has(person) || settle(holders.get(person), people, fits, holders, tried)) {
        holders.set(person, seat);
        return true;
      }
    }
  }
  return false;
}

/** Whether all seats can be filled. */
function canFill(seats, people, fits) {
  const holders = new Map();
  return Array.from({ length: seats }, (_, seat) => seat)
    .every((seat) => settle(seat, people, fits, holders, new Set()));
}

/** The first seating: for each seat the position of its person. Null if the seats cannot all be filled. */
export function firstSeating(seats, people, fits) {
  const chosen = [];
  const allowed = (seat, person) => (seat < chosen.length ? chosen[seat] === person
    : !chosen.includes(person) && fits(seat, person));
  if (!canFill(seats, people, fits)) {
    return null;
  }
  for (let seat = 0; seat < seats; seat += 1) {
    for (let person = 0; chosen.length === seat; person += 1) {
      if (!chosen.includes(person) && fits(seat, person)) {
        chosen.push(person);
        if (!canFill(seats, people, allowed)) {
          chosen.pop();
        }
      }
    }
  }
  return chosen;
}

/** Whether all seats can be filled with this person on this seat. */
export function canHave(seat, person, seats, people, fits) {
  return canFill(seats, people, (one, who) => (one === seat ? who === person : fits(one, who)));
}

/** Seats that outnumber the people who fit them: their positions from 0. Empty if all seats can be filled. */
export function shortSeats(seats, people, fits) {
  const holders = new Map();
  for (let seat = 0; seat < seats; seat += 1) {
    const tried = new Set();
    if (!settle(seat, people, fits, holders, tried)) {
      return [seat, ...[...tried].map((person) => holders.get(person))].sort((one, other) => one - other);
    }
  }
  return [];
}
