// Reads the feed of accepted commands: whole requests, one after the other.

const HEAD_END = "\r\n\r\n";

/** The place at which a text stands in bytes, from a place on. */
function find(bytes, text, start) {
  for (let place = start; place + text.length <= bytes.length; place += 1) {
    let same = 0;
    while (same < text.length && bytes[place + same] === text.charCodeAt(same)) {
      same += 1;
    }
    if (same === text.length) {
      return place;
    }
  }
  return -1;
}

/** The commands of a feed: the path and the members of each. */
export function commandsOf(bytes) {
  const found = [];
  const decoder = new TextDecoder();
  for (let start = 0; start < bytes.length;) {
    const end = find(bytes, HEAD_END, start);
    const head = decoder.decode(bytes.subarray(start, end));
    const path = head.split(" ", 2)[1];
    const length = Number(/content-length: *(\d+)/i.exec(head)[1]);
    const body = end + HEAD_END.length;
    found.push({ path, members: JSON.parse(decoder.decode(bytes.subarray(body, body + length))) });
    start = body + length;
  }
  return found;
}
