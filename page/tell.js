// Tells the user what came of a command, which commands have no answer yet, and asks before a doubtful one is sent.

import { button, fill, make, show } from "./dom.js";
import { pressButton, rest } from "./press.js";
import { acceptedInWords, inWords } from "./words.js";

const answer = document.getElementById("answer");
const waiting = document.getElementById("waiting");
const dialog = document.getElementById("question");

/** Shows the answer at the foot of the window. */
function showAnswer(kind, title, lines) {
  fill(answer,
    make("div", { role: kind === "accepted" ? "status" : "alert", class: "told" },
      make("strong", { id: "answer-title" }, title),
      lines.filter(Boolean).map((line) => (line instanceof Node ? line : make("p", {}, line)))),
    button("dismiss", "Dismiss", dismiss, "quiet"));
  answer.className = `answer ${kind}`;
  show(answer, true);
}

/** Hides the last answer. */
export function dismiss() {
  show(answer, false);
}

/** Tells an accepted command. */
export function tellAccepted(body, says) {
  const words = acceptedInWords(body, says);
  showAnswer("accepted", words.title, [words.sentence, words.more]);
}

/** Tells a refused command, in these words. */
export function tellRefused(words, says) {
  showAnswer("refused", words.title, [`${says}: not done.`, words.sentence, words.more, words.advice]);
}

/** Tells something that is no answer of the register. */
export function tellTrouble(title, ...lines) {
  showAnswer("trouble", title, lines);
}

/** Shows a command that has no answer yet. Returns true after `pause` milliseconds or when the user asks again, and
 *  false when the user gives it up. */
export function wait(entry, { reason, refusal }, pause) {
  return new Promise((resolve) => {
    let timer;
    const end = (again) => {
      clearTimeout(timer);
      show(waiting, false);
      fill(waiting);
      resolve(again);
    };
    const giveUp = async () => {
      clearTimeout(timer);
      const sure = await confirm("Give this command up?", [
        `${entry.says}?`, "It may have been executed already. Nobody will ask for its answer again."],
      "Give it up", "Keep it");
      end(!sure.yes);
    };
    const why = refusal ? inWords(refusal) : null;
    fill(waiting,
      make("div", { role: "alert", class: "told" },
        make("strong", {}, "No answer yet"),
        make("p", {}, `${entry.says}: ${why ? `${why.title}. ${why.sentence}` : reason}. The page keeps asking with `
          + "the same key, even after a reload. The register executes it once.")),
      button("again", "Ask again now", () => end(true)),
      button("give-up", "Give it up", giveUp, "quiet"));
    show(waiting, true);
    timer = setTimeout(() => end(true), pause);
  });
}

/** Asks in a dialog. Returns `yes`, and whether the box was ticked, if there is one. */
export function confirm(title, lines, yes, no, box = null) {
  return new Promise((resolve) => {
    const tick = box ? make("input", { type: "checkbox", id: "question-box" }) : null;
    const end = (sure) => {
      dialog.close();
      resolve({ yes: sure, box: tick?.checked ?? false });
    };
    fill(dialog,
      make("h2", { id: "question-title" }, title),
      lines.map((line) => make("p", {}, line)),
      tick ? make("label", { class: "tick", for: "question-box" }, tick, box) : null,
      make("div", { class: "row" },
        button("question-no", no, () => end(false), "primary"),
        pressButton("question-yes", yes, () => end(true), "", false)));
    rest();
    dialog.oncancel = (event) => {
      event.preventDefault();
      end(false);
    };
    dialog.showModal();
    document.getElementById("question-no").focus();
  });
}
