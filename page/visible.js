// Characters that deceive, as escapes: those that turn the direction of a text, that are not seen, or that look like a
// blank or a line end.

const HIDDEN = /[\p{Cc}\p{Cf}\p{Co}\p{Cn}\p{Cs}\p{Zl}\p{Zp}\u115F\u1160\u2800\u3164\uFFA0]|(?! )\p{Zs}/u;

/** The escape of a character: `\u202E`, `\u{E0001}`. */
function escapeOf(character) {
  const digits = character.codePointAt(0).toString(16).toUpperCase();
  return digits.length > 4 ? `\\u{${digits}}` : `\\u${digits.padStart(4, "0")}`;
}

/** The pieces of a text: `{ text }` as it is, and `{ text, isEscape }` in place of a character that deceives. Line ends
 *  and tabs stay if `keepLines` says so. */
export function pieces(text, keepLines = false) {
  const found = [];
  for (const character of text) {
    const isEscape = HIDDEN.test(character) && !(keepLines && (character === "\n" || character === "\t"));
    const shown = isEscape ? escapeOf(character) : character;
    if (found.at(-1)?.isEscape === isEscape) {
      found.at(-1).text += shown;
    } else {
      found.push({ text: shown, isEscape });
    }
  }
  return found;
}

/** Whether a text has a character that deceives. */
export function deceives(text) {
  return HIDDEN.test(text);
}

/** A text with escapes in place of characters that deceive. */
export function visible(text) {
  return deceives(text) ? pieces(text).map((piece) => piece.text).join("") : text;
}
