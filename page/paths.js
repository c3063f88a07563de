// The commands by their paths: what kind of command a path is, and what its parts name.

const KINDS = [
  ["person", /^\/people$/],
  ["training", /^\/people\/(?<who>[^/]*)\/roles$/],
  ["withdrawal", /^\/people\/(?<who>[^/]*)\/withdrawals$/],
  ["appointment", /^\/custodians$/],
  ["replacement", /^\/custodians\/(?<place>[^/]*)\/replacement$/],
  ["release", /^\/custodians\/(?<place>[^/]*)\/release$/],
  ["box", /^\/boxes$/],
  ["item", /^\/items$/],
  ["plan", /^\/ceremonies$/],
  ["opening", /^\/ceremonies\/(?<ceremony>\d+)\/opening$/],
  ["closing", /^\/ceremonies\/(?<ceremony>\d+)\/closing$/],
  ["sheet", /^\/ceremonies\/(?<ceremony>\d+)\/sheet$/],
  ["signature", /^\/ceremonies\/(?<ceremony>\d+)\/steps\/(?<step>[^/]*)\/signature$/],
  ["exception", /^\/ceremonies\/(?<ceremony>\d+)\/exceptions$/],
  ["safe", /^\/ceremonies\/(?<ceremony>\d+)\/safes\/(?<safe>[^/]*)$/],
  ...["seal", "take", "put", "cut"].map((act) =>
    [act, new RegExp(`^/ceremonies/(?<ceremony>\\d+)/bags/(?<serial>[^/]*)/${act}$`)]),
];

/** The kind of a command, and what its path names: `{ kind: "take", ceremony: "61", serial: "BB51184287" }`. */
export function readPath(path) {
  for (const [kind, form] of KINDS) {
    const found = form.exec(path);
    if (found) {
      return { kind, ...found.groups };
    }
  }
  return { kind: null };
}

/** The number of the ceremony that a command names; null if it names none. */
export function ceremonyOf({ path, members }) {
  const named = readPath(path).ceremony ?? members.ceremony ?? members.number;
  return named === undefined ? null : Number(named);
}
