// Draws who was in the room when, from the stays of an attendance.

import { draw } from "./dom.js";
import { seconds } from "./clock.js";

const WIDTH = 960;
const LEFT = 190;
const RIGHT = 30;
const LINE = 26;
const BAR = 14;
const TOP = 20;
const FOOT = 44;
const MOST_MARKS = 13;
const STEPS = [60, 120, 300, 600, 900, 1800, 3600, 7200, 10800, 21600, 43200, 86400, 604800, 2592000];

/** A moment in seconds, as a piece of its text. */
function clock(moment, from, to) {
  return new Date(1000 * moment).toISOString().slice(from, to);
}

/** The people in the order in which they first came, each with the stays. */
function people(stays) {
  const found = new Map();
  for (const stay of stays) {
    const one = found.get(stay.who) ?? { who: stay.who, name: stay.name, stays: [] };
    one.stays.push({ since: seconds(stay.since), until: stay.until === null ? null : seconds(stay.until) });
    found.set(stay.who, one);
  }
  return [...found.values()];
}

/** The marks of the scale, with lines and hours. */
function scale(begin, end, place, foot) {
  const step = STEPS.find((one) => (end - begin) / one < MOST_MARKS) ?? STEPS.at(-1);
  const marks = [];
  let day = "";
  for (let moment = Math.ceil(begin / step) * step; moment <= end; moment += step) {
    const x = place(moment).toFixed(1);
    marks.push(draw("line", { x1: x, y1: TOP, x2: x, y2: foot, class: "mark" }));
    marks.push(draw("text", { x, y: foot + 18, "text-anchor": "middle", class: "small" }, clock(moment, 11, 16)));
    if (clock(moment, 0, 10) !== day) {
      day = clock(moment, 0, 10);
      marks.push(draw("text", { x, y: foot + 34, "text-anchor": "middle", class: "small" }, day));
    }
  }
  return [...marks, draw("text", { x: 16, y: foot + 18, class: "small" }, "UTC")];
}

/** The line of a person: initials, name and a bar for each stay. */
function line(one, number, place, end) {
  const middle = TOP + LINE * number + LINE / 2;
  const bars = one.stays.map(({ since, until }) => {
    const left = place(since);
    const width = Math.max(place(until ?? end) - left, 1);
    const out = until === null ? "still in" : `to ${clock(until, 11, 19)}`;
    const told = `${one.who} ${one.name}: ${clock(since, 11, 19)} ${out}`;
    return draw("rect", {
      x: left.toFixed(1), y: middle - BAR / 2, width: width.toFixed(1), height: BAR, rx: 2,
      class: until === null ? "bar still" : "bar",
    }, draw("title", {}, told));
  });
  const name = one.name.length <= 18 ? one.name : `${one.name.slice(0, 17)}…`;
  const ground = { x: 0, y: TOP + LINE * number, width: WIDTH, height: LINE, class: number % 2 ? "odd" : "even" };
  return [draw("rect", ground),
    draw("text", { x: 16, y: middle + 4, class: "who" }, one.who),
    draw("text", { x: 62, y: middle + 4 }, name), bars];
}

/** The picture, as an SVG element. */
export function pictureOf(stays, title) {
  const found = people(stays);
  const told = stays.flatMap((stay) => [stay.since, stay.until]).filter(Boolean).map(seconds);
  const first = told.length > 0 ? Math.min(...told) : 0;
  const last = told.length > 0 ? Math.max(...told) : 0;
  const margin = Math.max(60, Math.floor((last - first) / 40));
  const [begin, end] = [first - margin, last + margin];
  const foot = TOP + LINE * found.length;
  const place = (moment) => LEFT + ((WIDTH - LEFT - RIGHT) * (moment - begin)) / (end - begin);
  return draw("svg", { viewBox: `0 0 ${WIDTH} ${foot + FOOT}`, class: "stays", role: "img", "aria-label": title },
    found.map((one, number) => line(one, number, place, end)),
    told.length > 0 ? scale(begin, end, place, foot) : draw("text", { x: 16, y: 40 }, "Nobody was in the room."));
}
