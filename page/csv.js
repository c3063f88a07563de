// Comma-separated values: splits them as RFC 4180 does, for showing. The register judges a script itself.

// A field, quoted or plain, what follows a closing quote, and the end of the field.
const FIELD = /(?:"((?:[^"]|"")*)"|([^,\r\n]*))([^,\r\n]*)(,|\r\n?|\n|$)/y;

/** The rows of a text, each a list of fields. Empty lines are left out, so rows count as the register counts them. */
export function rowsOf(text) {
  const body = text.replace(/^\uFEFF/, "");
  const rows = [];
  let row = [];
  for (let place = 0; place < body.length;) {
    FIELD.lastIndex = place;
    const [all, quoted, plain, rest, end] = FIELD.exec(body);
    row.push((quoted === undefined ? plain : quoted.replaceAll('""', '"')) + rest);
    place += all.length;
    if (end !== ",") {
      if (row.length > 1 || row[0] !== "") {
        rows.push(row);
      }
      row = [];
    }
  }
  if (row.length > 0) {
    rows.push([...row, ""]);
  }
  return rows;
}
