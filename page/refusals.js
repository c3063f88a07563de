// The 35 refusals in words, and what 30 and 31 carry.
//
// tools/page_refusals.py writes this file from docs/REFUSALS.md: number, word, status, sentence, and what to do.

export const REFUSALS = [
  [1, "head", 400, "The input has no request head of at most 8,192 bytes and 64 fields.", "Send a whole HTTP/1.1 head, with fewer fields."],
  [2, "host", 400, "HTTP/1.1 requires exactly one Host field, HTTP/1.0 at most one.", "Send one."],
  [3, "length", 400, "Content-Length is given twice, or is not only digits.", "Send one number."],
  [4, "coding", 501, "The request has a Transfer-Encoding field.", "Send Content-Length."],
  [5, "large", 413, "Content-Length is greater than 131,072.", "Send less."],
  [6, "cut", 400, "The input ended inside the body.", "Correct Content-Length."],
  [7, "path", 404, "There is no such path, or a part of it is not of its form.", "Correct it: `docs/API.md` has all paths."],
  [8, "method", 405, "The path does not take this method.", "See the field `allow`."],
  [9, "json", 400, "The body is not JSON in UTF-8, nested at most 127 deep.", "Correct it."],
  [10, "form", 422, "The member `member` is missing or not of its form.", "Correct it: `docs/REFUSALS.md` has the form of each member."],
  [11, "key", 409, "The key was accepted with another command.", "A retry: send the first command unchanged. Another command: take a new key."],
  [12, "unknown", 404, "The register has no `thing`.", "Enter it first, or correct it. If it is a command, another register answers, or one that lost commands: stop."],
  [13, "taken", 409, "It exists already: the person, training, box, place's box, item, ceremony or serial.", "If the same thing is meant, it is there: go on. Else take another code or number."],
  [14, "range", 422, "A day is too early for another one, or the box's place is not that of a crypto officer of the facility.", "Correct the day or the place."],
  [15, "apart", 409, "A person who was ever trained for a role may not hold a place, nor the reverse.", "Take another person."],
  [16, "held", 409, "On that day or later the place has a holder, or the person holds a place.", "Replace or release the holder, or take another person or place."],
  [17, "vacant", 409, "There is no holder to replace or release, or no training to withdraw.", "A place: appoint instead. A withdrawal: the person is not trained for this role then, so look at role and day."],
  [18, "settled", 409, "The day is not after the settled day, `day`.", "Take a later day. If `day` lies ahead of today, stop: `docs/OPERATING.md`, \"When something wrong was accepted\"."],
  [19, "script", 422, "The script breaks a rule in row `row`.", "Correct the row: its number, then its activity, then its seats."],
  [20, "state", 409, "The ceremony is not open or, for an opening, not planned.", "If it is planned, open it. If you were opening it, it was opened before: go on. A closed one stays closed."],
  [21, "busy", 409, "Another ceremony is open in the facility.", "Close that one first. If a moment in the future keeps it open, stop: `docs/OPERATING.md`, \"When something wrong was accepted\"."],
  [22, "late", 409, "The ceremony already has an entry at `mark`. No moment may be earlier; on the sheet it must be later.", "Take a later moment, and note the true one in an exception. If `mark` lies ahead of now, stop: `docs/OPERATING.md`, \"When something wrong was accepted\"."],
  [23, "order", 409, "The next step is `next`, or no step is left to pass over.", "If `next` is after your step, yours is done. If it is after the last step, all are done: close the ceremony. Else sign `next` first, or pass it over."],
  [24, "turn", 409, "`who` must come in and go out alternately, each time at a later moment.", "Look at the attendance. Enter the missing row, or take a later moment."],
  [25, "crowd", 409, "At some moment more than 128 people would be in the room.", "Let people go out first."],
  [26, "lone", 409, "Exactly one person would be in the room at `moment`.", "Enter everybody who comes in or goes out at that moment together."],
  [27, "full", 409, "The limit is reached: 1,000 rows `in` or 200 exceptions of a ceremony, or 4,000,000,000 commands.", "Nothing more of this kind can be entered."],
  [28, "safe", 409, "The safe is already as asked, or it is shut and must be open.", "If you were opening or shutting the safe, it is so already: go on. If you were moving a bag, open the safe first."],
  [29, "where", 409, "The item or the bag is not where the command requires it.", "Ask where it is (`/custody`), and move it first."],
  [30, "absent", 409, "Somebody who is needed is not in the room, or not trained: `who`.", "Whoever is not in the room comes in. Somebody who is there lacks the training for that day: enter it, or let another do it."],
  [31, "unfinished", 409, "The ceremony cannot be closed: `part`.", "Sign or pass over the steps. Enter who goes out, or close later. Shut the safes. Put the bags away."],
  [32, "short", 409, "Too few people in the room fit these seats: `seats`.", "Let others come in. If they are there, look at their trainings and places on that day. Else pass the step over."],
  [33, "memory", 503, "Out of memory; nothing changed.", "Retry with the same key."],
  [34, "disk", 500, "I/O error, full disk, or an invalid row in the file; the register stops.", "Look at the disk, start again, and retry with the same key."],
  [35, "broken", 500, "The register stopped at an earlier request, which got 34.", "As for 34."],
];

export const CARRIED = {
  "30": {
    "initials": "This person is not in the room, or not trained for the safe.",
    "place": "This place has no holder on that day, or its holder is not in the room.",
    "CA": "Nobody in the room is trained as ceremony administrator on that day."
  },
  "31": {
    "steps": "A step is neither signed nor passed over.",
    "room": "Somebody is in the room, or a row of the sheet is later than the closing.",
    "safes": "A safe of the facility is open.",
    "table": "A bag is on the facility's table."
  }
};
