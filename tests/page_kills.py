"""Kills of the register and of the browser at each kind of act, and answers that are lost: each command is executed
once. `page.py` runs these tests.
"""
import re

import kcr
from desk import contains
from kcr import call, expect
from page_small import DAY, at, prepared, staff

KEPT = """
const done = arguments[arguments.length - 1], asked = indexedDB.open('kcr', 1);
asked.onsuccess = () => {
  const all = asked.result.transaction('outbox').objectStore('outbox').getAll();
  all.onsuccess = () => { asked.result.close(); done(all.result.length); };
};
"""


def lost_answer(program, browser, room):
    """A command whose answer is lost again and again is asked for under its key, and is executed once."""
    with prepared(program, browser, [], "#/people", file=room / "lost") as at_desk:
        at_desk.between.lose = 1_000
        browser.fill("person", who="AA", name="Ann Abel")
        browser.until("a command without an answer", lambda: "No answer yet" in browser.text("waiting"))
        expect("kept", 1, browser.driver.execute_async_script(KEPT))
        browser.until("more tries", lambda: len(at_desk.between.seen) > 2)
        at_desk.between.lose = 0
        browser.until("the answer", lambda: "Accepted as number 1" in browser.text("answer"))
        browser.ready()
        expect("the requests", 1, len(set(at_desk.between.seen)))
        expect("kept", 0, browser.driver.execute_async_script(KEPT))
        expect("people", "1 person in the register.", browser.text("people-count"))
    expect_once(room / "lost")


def expect_once(file):
    """Sees that a register has one person, by one command."""
    with kcr.opened(file) as database:
        expect("the rows", [("AA", "Ann Abel")], database.execute("SELECT who, name FROM people").fetchall())
        expect("the keys", 1, database.execute("SELECT count(*) FROM keys").fetchone()[0])


def killed(program, browser, room):
    """A command whose browser or whose register is killed in the middle of it is asked for again under its key, and is
    executed once."""
    with prepared(program, browser, [], "#/people", file=room / "again") as at_desk:
        at_desk.between.hold = True
        browser.type("person-who", "AA")
        browser.type("person-name", "Ann Abel")
        browser.find("person-send").click()
        browser.until("the command", lambda: at_desk.between.seen)
        browser.kill()
        browser.driver.get(f"{at_desk.url}#/people")
        browser.until("the command again", lambda: len(at_desk.between.seen) > 1)
        at_desk.kill()
        at_desk.between.lose, at_desk.between.hold = 2, False
        browser.until("no answer", lambda: "No answer yet" in browser.text("waiting"))
        at_desk.start(program)
        browser.until("the answer", lambda: "Accepted as number 1" in browser.text("answer"))
        contains("the answer", "(asked again)", browser.text("answer"))
        browser.ready()
        expect("the requests", 1, len(set(at_desk.between.seen)))
    expect_once(room / "again")


def form_of(form, **values):
    """An act that fills a form and sends it, and does not wait for its end."""
    def act_on(browser):
        browser.enter(form, **values)
        browser.again(lambda: browser.click_on(f"{form}-send"))
    return act_on


def button_of(name, **chosen):
    """An act that chooses values and presses a button, and does not wait for its end."""
    def act_on(browser):
        for choice, value in chosen.items():
            browser.choose(choice.replace("_", "-"), value)
        browser.again(lambda: browser.click_on(name))
    return act_on


WHOLE_YEAR = {"from": "2025-01-01", "until": "2025-12-31"}
PLANNED = {"number": "61", "facility": "EAST", "day": DAY, "script": "step,activity,seats\n1,One,CA;IW\n2,Two,CA\n"}
ACTS = [  # each kind of command: the view, the act, and what the page says of it
    ("people", form_of("person", who="EF", name="Eff Ford"), "Enter EF, Eff Ford"),
    ("people", form_of("training", who="VV", role="SW", **WHOLE_YEAR), "Train VV as SW"),
    ("people", form_of("withdrawal", who="VV", role="SW", day="2025-02-01"), "Withdraw SW of VV"),
    ("places", form_of("appoint", place="CO-EAST-2", who="EC", day="2025-01-01"), "Appoint EC to CO-EAST-2"),
    ("places", form_of("replace", place="CO-EAST-2", who="EF", day="2025-01-02"), "Replace the holder of CO-EAST-2"),
    ("places", form_of("release", place="CO-EAST-2", day="2025-01-03"), "Release CO-EAST-2"),
    ("places", form_of("box-new", facility="EAST", box="3", place="CO-EAST-1"), "Add box 3 of EAST"),
    ("planning", form_of("plan", **PLANNED), "Plan ceremony 61"),
    ("script/61", button_of("open"), "Open ceremony 61"),
    ("room/61", form_of("way-in", who="AA BB CC EA EC"), "AA, BB, CC, EA, EC: come in"),
    ("script/61", button_of("sign"), "Sign step 1"),
    ("script/61", form_of("exception", text="A pause"), "Write down an exception"),
    ("script/61", form_of("exception", text="No key", **{"pass": True}), "Pass over step 2"),
    ("script/61", button_of("safe-2-send", safe_2_by="CC"), "Open safe 2"),
    ("script/61", form_of("item-new", item="HSM4"), "Add item HSM4"),
    ("script/61", form_of("seal", items="HSM4", serial="BB51184287"), "Seal HSM4 into BB51184287"),
    ("script/61", button_of("put-BB51184287", to_BB51184287="3"), "Put bag BB51184287 into box 3"),
    ("script/61", button_of("take-BB51184287"), "Take bag BB51184287"),
    ("script/61", button_of("cut-BB51184287"), "Cut bag BB51184287"),
    ("script/61", button_of("safe-2-send", safe_2_by="CC"), "Shut safe 2"),
    ("room/61", form_of("way-out", who="AA BB CC EA EC"), "AA, BB, CC, EA, EC: go out"),
    ("script/61", button_of("close"), "Close ceremony 61"),
]


def play_killed(program, browser, file, kill):
    """Plays each kind of act, with its answer held back until what `kill` kills is there again: each act is executed
    once, and the file verifies."""
    with prepared(program, browser, staff()[:-1], "#/people", file=file) as at_desk:
        shown = "people"
        for number, (view, act_on, done) in enumerate(ACTS):
            browser.clock(at(f"20:08:{number:02}"))
            if view != shown or kill is kill_browser:
                at_desk.open(f"#/{view}")
            shown = view
            before = len(set(at_desk.between.seen))
            at_desk.between.hold = True
            act_on(browser)
            browser.until("the command", lambda before=before: browser.click_if("question-yes")
                          or len(set(at_desk.between.seen)) > before)
            kill(program, browser, at_desk, view)
            browser.until(f"{done} accepted", lambda done=done: re.search(f"Accepted.*{done}", browser.text("answer"),
                                                                           re.S))
            browser.ready()
            expect(f"commands at {done}", before + 1, len(set(at_desk.between.seen)))
    expect("the file", b"verified: ", call(program, "verify", "--file", file)[0][:10])
    with kcr.opened(file) as database:
        expect("the keys", len(staff()) - 1 + len(ACTS), database.execute("SELECT count(*) FROM keys").fetchone()[0])


def kill_register(program, browser, at_desk, _view):
    """Kills the register before its answer comes, and starts it again."""
    at_desk.kill()
    at_desk.between.lose, at_desk.between.hold = 1, False
    at_desk.start(program)
    browser.until("the end", lambda: not browser.shown("waiting") or browser.click_if("again"))


def kill_browser(_program, browser, at_desk, view):
    """Kills the browser before its answer comes, and opens the page again."""
    browser.kill()
    at_desk.between.hold = False
    browser.driver.get(f"{at_desk.url}#/{view}")


def register_killed_at_each_act(program, browser, room):
    """The register is killed at each kind of act, before it answers, and started again: each act is executed once, and
    the page goes on by itself."""
    play_killed(program, browser, room / "acts", kill_register)


def browser_killed_at_each_act(program, browser, room):
    """The browser is killed at each kind of act, before the answer comes: the page asks again under the same key, and
    each act is executed once."""
    play_killed(program, browser, room / "acts", kill_browser)


def given_up(program, browser, _room):
    """A command without an answer can be given up, after a question."""
    with prepared(program, browser, [], "#/people") as at_desk:
        at_desk.between.lose = 1_000
        browser.fill("person", who="AA", name="Ann Abel")
        browser.until("the question", lambda: browser.click_if("give-up") or browser.shown("question"))
        contains("the question", "It may have been executed already.", browser.text("question"))
        browser.find("question-yes").click()
        browser.until("the end", lambda: "Given up" in browser.text("answer"))
        expect("kept", 0, browser.driver.execute_async_script(KEPT))
