#!/usr/bin/env python3
"""The desk's page in a real browser, played by clicks and typing as a person would.

    tests/page.py PROGRAM [--pictures FOLDER] [NAME ..]

Shown are: that the page's words of refusals are those of REFUSALS; what `page/serve.py` refuses and bounds; a whole
ceremony from an empty register (`page_ceremony.py`), with the record compared with the program's reports row by row,
and the number of clicks; that one press signs one step; who will be recorded; what the page says while the register is
away or has lost commands; drafts; what it asks first; refusals in words; that a command is executed once, whatever is
killed at whatever act; doubtful moments; a step by keyboard alone; labels, at 320 pixels, light and dark; that texts of
the register stay texts; 400 steps and 1,000 people in under a second; the record on A4 and Letter and as a file. With
`--pictures` the main views are written into the folder as PNG. With names only these tests run. The rules that the page
knows are tested by `page_rules.py`, without a browser.

Where `chromium`, `chromedriver` or `python3-selenium` is not installed, the tests that need a browser are left out, and
a line says so. The last line is `N passed, M failed`, and the status is 0 where none failed.
"""
import sys

sys.dont_write_bytecode = True  # no files beside these

import base64
import contextlib
import functools
import http.server
import json
import pathlib
import re
import threading
import time

import desk
import kcr
import page_ceremony as story
import page_kills as kills
import page_served
from desk import PAGE, Desk, contains
from kcr import HERE, Wrong, call, expect, post
from page_small import DAY, act, at, opened, plan, prepared, refused, training

TOP = HERE.parent
sys.path.insert(0, str(TOP / "tools"))
import page_refusals

EXAMPLE = TOP / "examples"
REFUSALS = (TOP / "docs" / "REFUSALS.md").read_text(encoding="utf-8")
MOST_BYTES = 150_000  # of a picture
PICTURED = 112  # requests of the example that are sent before pictures are taken


# Without a browser

def words_of_refusals(_program, _room):
    """page/refusals.js is what tools/page_refusals.py writes from docs/REFUSALS.md."""
    expect("page/refusals.js", page_refusals.module(REFUSALS), (PAGE / "refusals.js").read_text(encoding="utf-8"))
    expect("refusals", list(range(1, 36)), [int(n) for n in re.findall(r"(?m)^  \[([0-9]+), ",
                                                                         page_refusals.module(REFUSALS))])


def sources(_program, _room):
    """The page's files load nothing from elsewhere, parse no text as HTML, run none, and are short enough to read."""
    for path in sorted(PAGE.iterdir()):
        text = path.read_text(encoding="utf-8")
        if len(text.splitlines()) > 800:
            raise Wrong(f"{path.name} has more than 800 lines")
        if path.suffix in (".js", ".html", ".css"):
            for word in ("innerHTML", "outerHTML", "insertAdjacent", "document.write", "eval(", "new Function",
                         "@import", "https://", "url("):
                if word in text:
                    raise Wrong(f"{path.name} has {word}")
            foreign = [found for found in re.findall(r"http://\S+", text) if "www.w3.org" not in found]
            expect(f"addresses in {path.name}", [], foreign)
    for name in re.findall(r'(?:src|href)="([^"#]+)"', (PAGE / "index.html").read_text(encoding="utf-8")):
        if not (PAGE / name).is_file():
            raise Wrong(f"index.html names {name}, which is not there")


# A whole ceremony

def whole_ceremony(program, browser, room):
    """A ceremony of 60 steps with 10 bags, from an empty register to its record, by the page alone. Then the file
    verifies, the audit finds nothing, and the reports have what was done."""
    clock = story.Clock(browser)
    with Desk(program, browser, room / "played") as at_desk:
        browser.driver.get(at_desk.url)
        clock.go_on(0)
        at_desk.open("#/beginning")
        story.begin(browser, room)
        story.take_stock(browser, clock)
        browser.clicks = browser.keys = 0
        story.play_steps(browser, clock)
        print(f"60 steps with 10 bags: {browser.clicks} clicks, {browser.keys} keys")
        story.compare_record(program, browser, room)
        expect("the console", [], browser.log())
        at_desk.kill()
    for words, wanted in ((("verify",), b"verified: "), (("audit",), b"audit: nothing found")):
        told = call(program, *words, "--file", room / "played")
        if not told[0].startswith(wanted):
            raise Wrong(f"{words}: {told}")


# One press, and what the page knows

def one_press(program, browser, _room):
    """A held key signs one step, and so do two presses 50 to 900 ms apart; after a second the next press counts. The
    focus is on the title of the next step. A safe that was opened is not shut by the rest of a press. A press just
    as another desk signs, or just as a question opens, does nothing."""
    script = "step,activity,seats\\n" + "".join(f"{n},Step {n},CA\\n" for n in range(1, 31))
    with prepared(program, browser, opened(script)) as at_desk:
        browser.run("sessionStorage.setItem('test-rest', 'true')")
        at_desk.open("#/script/61")
        browser.run(NOTE_PRESSES)
        pauses = [50, 200, 500, 900]
        while pauses:
            step = signatures(at_desk) + 1
            browser.until("the step", lambda step=step: browser.text("sign") == f"Sign step {step}")
            browser.until("its rest", lambda: browser.find("sign").get_attribute("data-resting") is None)
            if press_twice(browser, pauses[0]) < 1_000:  # else the machine was too busy: once more
                browser.until("the end", lambda step=step: browser.text("sign") != f"Sign step {step}")
                browser.until("its rest", lambda: browser.find("sign").get_attribute("data-resting") is None)
                expect(f"signatures after presses {pauses.pop(0)} ms apart", step, signatures(at_desk))
            browser.ready()
        step = signatures(at_desk) + 1
        browser.run("document.getElementById('sign').focus()")
        browser.hold("Enter", 40)
        browser.until("the focus", lambda: browser.run("return document.activeElement.id") == "next-title")
        expect("the button", f"Sign step {step + 1}", browser.text("sign"))
        expect("signatures after a held key", step, signatures(at_desk))
        time.sleep(1.2)
        browser.hold("Enter", 10)
        expect("after a held key on the title", step, signatures(at_desk))
        browser.choose("safe-2-by", "CC")
        browser.run("document.getElementById('safe-2-send').focus()")
        browser.hold(" ", 5)
        browser.until("the safe", lambda: browser.text("safe-2-state") == "Open")
        browser.press_key("Enter")
        expect("safes", 1, sum(b"/safes/" in request for request in at_desk.between.seen))
        browser.until("its rest", lambda: browser.find("sign").get_attribute("data-resting") is None)
        browser.run(PRESS_CHANGED)
        at_desk.send([act(61, f"steps/{step + 1}/signature", "other", "20:08:00")])
        browser.until("the press", lambda: browser.run("return window.pressed === true"))
        browser.until("its rest", lambda: browser.find("sign").get_attribute("data-resting") is None)
        browser.run("document.getElementById('close').click(); document.getElementById('question-yes').click();")
        expect("the question", True, browser.shown("question"))
        browser.click("question-no")
        expect("signatures after another desk's", step, signatures(at_desk))


NOTE_PRESSES = "window.presses = []; addEventListener('pointerdown', () => presses.push(performance.now()), true);"


def press_twice(browser, pause):
    """Presses the button of the next step, and the same place again after a pause. Returns the milliseconds that there
    were between them."""
    x, y = browser.run("const { x, y } = arguments[0].getBoundingClientRect(); return [x + 20, y + 20]",
                       browser.find("sign"))
    begun = time.monotonic()
    browser.press_at(x, y)
    time.sleep(max(0, begun + pause / 1000 - time.monotonic()))
    browser.press_at(x, y)
    return browser.run("return presses.at(-1) - presses.at(-2)")


PRESS_CHANGED = """
const before = document.getElementById("sign");
new MutationObserver((_, watch) => {
  const now = document.getElementById("sign");
  if (now && now !== before) {
    watch.disconnect();
    now.click();
    window.pressed = true;
  }
}).observe(document.getElementById("next"), { childList: true, subtree: true });
"""


def signatures(at_desk):
    """How many signatures were sent."""
    return sum(b"/signature" in request.split(b"\r\n")[0] for request in at_desk.between.seen)


def will_be_recorded(program, browser, _room):
    """The next step says who will be recorded, who else fits, and what one can do; if nobody fits, which seats lack
    people. The check of a plan names the steps that nobody can fill."""
    more = [kcr.person(b"p-AB", b"AB", b"Abe Lott"), training("AB", "CA"), plan(62, day="2025-02-14")]
    comes = act(61, "sheet", "s1", "20:06:00", '"way":"in","who":["AB"],')
    with prepared(program, browser, [*opened(), *more, comes]) as at_desk:
        told = browser.text("recorded")
        contains("the line", "Will be recorded: CA AA Ann Abel, IW BB Bob Berg.", told)
        contains("the line", "waits outside the room, or is not trained for this day", told)
        contains("the seats", "also fits: AB", browser.text("next"))
        goes = act(61, "sheet", "s2", "20:07:00", '"way":"out","who":["AB"],')
        at_desk.send([training("AA", "IW"), training("BB", "CA"), goes])
        browser.until("who could change seats", lambda: "also fits: BB" in browser.text("next"))
        contains("the seats", "also fits: AA", browser.text("next"))
        contains("the line", "If somebody else has the seat", browser.text("recorded"))
        browser.click("sign")
        contains("the line", "Cannot be signed: seat 2 (CO), seat 3 (CO) have only EA.", browser.text("recorded"))
        browser.click("sign")
        refused(browser, "short", "seat 2, CO (crypto officer): in the room EA", "In the room: AA BB CC EA EC.")
        story.choose(browser, 62, "script")
        contains("the verdict", "1 step that these people cannot fill: 2.", browser.text("plan-verdict"))
        browser.type("expected-who", "bb zz")
        contains("the verdict", "2 steps that these people cannot fill: 1 to 2.", browser.text("plan-verdict"))
        contains("the verdict", "Not in the register: ZZ.", browser.text("plan-verdict"))


def away(program, browser, room):
    """While the register is away the page says that it knows nothing, its buttons are off, and it goes on asking; also
    if it was opened then. Once the register is back, all is there by itself."""
    with prepared(program, browser, opened(), "#/room/61", file=room / "away") as at_desk:
        at_desk.kill()
        at_desk.open("#/room/61")
        contains("the room", "Not known", browser.text("inside-count"))
        if "nobody" in browser.text("content"):
            raise Wrong(f"the room says {browser.text('content')!r}")
        expect("the button", False, browser.find("way-in-send").is_enabled() and browser.shown("way-in-send"))
        browser.go("beginning")
        contains("the needs", "A ceremony is chosen and open: not known", browser.text("stock-needs"))
        browser.go("ceremonies")
        contains("the list", "Not known", browser.text("ceremonies"))
        contains("the frame", "The register does not answer", browser.text("trouble"))
        with stranger() as port:
            at_desk.between.register = port
            at_desk.open("#/ceremonies")
            contains("the frame", "what answers is not the register", browser.text("trouble").lower())
        at_desk.start(program)
        browser.until("the list", lambda: "Ceremony 61" in browser.text("ceremonies"))
        story.choose(browser, 61, "room")
        browser.until("the room", lambda: "5 people in the room." in browser.text("inside-count"))
        at_desk.kill()
        browser.until("the trouble", lambda: browser.shown("trouble"))
        contains("the room", "When it last did: 5 people", browser.text("inside-count"))
        expect("the button", False, browser.find("way-in-send").is_enabled())
        at_desk.start(program)
        browser.until("no trouble", lambda: not browser.shown("trouble"))
        expect("the button", True, browser.find("way-in-send").is_enabled())


@contextlib.contextmanager
def stranger():
    """A server in place of the register that answers each request with a web page. Gives its port."""
    class Sorry(http.server.BaseHTTPRequestHandler):
        def do_GET(self):
            self.wfile.write(b"HTTP/1.1 200 OK\r\nContent-Type: text/html\r\nContent-Length: 11\r\n\r\n<p>Sorry</p")

        def log_message(self, *_):
            """Writes no log."""
    with http.server.HTTPServer(("127.0.0.1", kcr.free_port()), Sorry) as server:
        threading.Thread(target=server.serve_forever, daemon=True).start()
        yield server.server_port
        server.shutdown()


def lost_commands(program, browser, _room):
    """If the register has fewer commands than the page saw, the page says so, and sends nothing until that is known."""
    with prepared(program, browser, opened()) as at_desk:
        browser.run("localStorage.setItem('kcr.seen', JSON.stringify({count: 40, key: 'gone'}))")
        at_desk.open("#/script/61")
        contains("the frame", "The register lost commands", browser.text("trouble"))
        contains("the frame", "This browser saw command 40", browser.text("trouble"))
        expect("the button", False, browser.find("sign").is_enabled())
        browser.click("accept-loss")
        expect("the button", True, browser.find("sign").is_enabled())
        at_desk.between.fewer = 1
        browser.click("look-again")
        browser.until("the feed again", lambda: at_desk.between.fewer == 0)
        browser.ready()
        expect("the button", "Sign step 1", browser.text("sign"))


def drafts(program, browser, room):
    """What was typed stands again after another view, a refusal and a reload; a corrected file of the same name is read
    again; small letters become capitals."""
    with prepared(program, browser, opened(), "#/people") as at_desk:
        browser.fill("person", who="v1", name="Vi Second")
        refused(browser, "form", "'V1': initials are 2 to 4 capital letters.")
        expect("the mark", "true", browser.find("person-who").get_attribute("aria-invalid"))
        expect("the focus", "person-who", browser.run("return document.activeElement.id"))
        browser.go("places")
        browser.go("people")
        expect("the draft", "Vi Second", browser.find("person-name").get_attribute("value"))
        at_desk.open("#/people")
        expect("the draft", "v1", browser.find("person-who").get_attribute("value"))
        browser.fill("person", who="vs")
        contains("the answer", "Enter VS, Vi Second: done.", browser.text("answer"))
        expect("the draft", "", browser.find("person-name").get_attribute("value"))
        typed = (("script/61", "exception-text", "A pen"), ("room/61", "way-in-who", "vv"),
                 ("planning", "plan-script", "step,activity,seats\n1,One,CA"))
        for view, field, text in typed:
            at_desk.open(f"#/{view}")
            browser.type(field, text)
        for view, field, text in typed:
            at_desk.open(f"#/{view}")
            expect(f"the draft of {field}", text, browser.find(field).get_attribute("value"))
        file = room / "script.csv"
        for row, told in (("1,One,CA*1", "One breaks a rule."), ("1,One,CA", "All are as they must be.")):
            file.write_text(f"step,activity,seats\n{row}\n", encoding="utf-8")
            browser.find("plan-file").send_keys(str(file))
            browser.until("the file", lambda told=told: told in browser.text("rows-told"))
        browser.paste("plan-script", "step,activity,seats\n1,One,CA\n2,Two,CA*1\n")
        browser.fill("plan", number="64", facility="WEST", day=DAY)
        refused(browser, "script", "Row 3: 'CA*1' is no seat")
        order = browser.run("return [...document.querySelectorAll('#rows tbody tr')].map(row => row.id)")
        expect("the rows", ["row-1", "row-2", "row-3", ""], order)


def typed_while_sending(program, browser, _room):
    """What is typed while a command has no answer stays. What was sent and accepted is not there to be sent again, also
    if another view was open meanwhile, or the page was loaded again."""
    with prepared(program, browser, opened()) as at_desk:
        for number, then in enumerate(("wait", "go", "load", "type"), 1):
            at_desk.between.hold = True
            browser.enter("exception", text="First", **{"pass": False})
            browser.again(lambda: browser.click_on("exception-send"))
            browser.until("the command", lambda number=number: len(set(at_desk.between.seen)) == number)
            if then == "go":
                browser.run("location.hash = '#/people'")
                browser.until("the people", lambda: browser.shown("find-people"))
                browser.run("location.hash = '#/script/61'")
                browser.until("the form", lambda: browser.shown("exception-text"))
                expect("the draft", "First", browser.find("exception-text").get_attribute("value"))
            elif then == "load":
                browser.driver.get("about:blank")
                browser.driver.get(f"{at_desk.url}#/script/61")
            elif then == "type":
                browser.find("exception-text").send_keys(" and more")
            at_desk.between.hold = False
            browser.until("the answer", lambda number=number: f"exception {number}." in browser.text("answer"))
            browser.ready()
            expect(f"the draft after {then}", "First and more" if then == "type" else "",
                   browser.find("exception-text").get_attribute("value"))


def asks_first(program, browser, _room):
    """To let people out while a safe is open or a bag on the table, to pass over a step and to close are asked about; a
    no sends nothing."""
    item = post(b"/items", b"i", f'"ceremony":61,"item":"CARD1","at":"{at("20:06:00")}"'.encode())
    bag = act(61, "bags/BB51184281/seal", "b", "20:07:00", '"items":["CARD1"],')
    with prepared(program, browser, [*opened(), item, bag]) as at_desk:
        browser.safe("2", "CC")
        browser.go("room")
        browser.clock(at("20:09:00"))
        browser.fill("way-out", who="EC VV")
        for part in ("Safe 2 is open.", "On the table: BB51184281."):
            contains("the question", part, browser.text("question"))
        browser.click("question-no")
        browser.go("script")
        browser.fill("exception", text="Nobody has the key", **{"pass": True})
        for part in ("Pass over step 1?", "Will be recorded: CA AA Ann Abel, IW BB Bob Berg."):
            contains("the question", part, browser.text("question"))
        browser.click("question-no")
        browser.click("close")
        for part in ("Close ceremony 61?", "Steps: 3 steps to do.", "5 in: AA, BB, CC, EA, EC", "Safe 2 is open.",
                     "On the table: BB51184281."):
            contains("the question", part, browser.text("question"))
        browser.click("question-no")
        expect("what was sent", 1, len(at_desk.between.seen))
        expect("the draft", "Nobody has the key", browser.find("exception-text").get_attribute("value"))
        browser.click("close")
        browser.agree()
        refused(browser, "unfinished", "Steps 1 to 3 are neither signed nor passed over.")


def refusals_of_ceremonies(program, browser, _room):
    """Refusals that another desk's act brings about, in words; then the page shows what is so now."""
    with prepared(program, browser, [*opened(), plan(63)]) as at_desk:
        browser.click("sign")
        browser.moment("20:07:30")
        browser.click("sign")
        refused(browser, "late", f"The ceremony has an act at {at('20:08:00')}", "30 s earlier")
        browser.by_clock()
        at_desk.between.deaf = True
        at_desk.send([act(61, "exceptions", "x", "20:08:00", '"text":"Passed","pass":true,')])
        browser.find("sign").click()
        browser.until("the command", lambda: len(at_desk.between.seen) == 3)
        at_desk.between.deaf = False
        refused(browser, "order", "The next step is 3")
        browser.until("the button", lambda: browser.text("sign") == "Sign step 3")
        browser.go("room")
        browser.clock(at("20:09:00"))
        browser.fill("way-out", who="AA BB CC EA")
        refused(browser, "lone", f"At {at('20:09:00')} exactly one person would be in the room: EC.")
        story.choose(browser, 63, "script")
        browser.click("open")
        refused(browser, "busy", "Ceremony 61 is open in EAST: close it first.")


def refusals_in_doubt(program, browser, _room):
    """After 33, 34 and 35 a command is kept and asked for again under its key, until its answer comes."""
    with prepared(program, browser, [], "#/people") as at_desk:
        broken = b"500 Internal Server Error"
        for number, word, status in ((33, "memory", b"503 Service Unavailable"), (34, "disk", broken),
                                     (35, "broken", broken)):
            at_desk.between.give = kcr.answer(status, b'{"number":%d,"refusal":"%s"}' % (number, word.encode()))
            browser.fill("person", who="A" * (number - 31), name="Ann")
            told = f"Refused: {word} ({number})"
            browser.until(told, lambda told=told: told in browser.text("waiting"))
            at_desk.between.give = None
            browser.click_if("again")
            browser.until("an answer", lambda: "Accepted" in browser.text("answer"))
            browser.ready()
        expect("the requests", 3, len(set(at_desk.between.seen)))


# Moments, keys, labels, texts

def doubtful_moments(program, browser, _room):
    """A moment that is off a clock, in the future or on another day is asked about, and sent only after a yes. The page
    says by how much its clock differs from the proxy's. A moment can be typed as 20:45."""
    with prepared(program, browser, opened()) as at_desk:
        def asks(moment, *parts):
            browser.moment(moment)
            browser.click("sign")
            for part in parts:
                contains(f"the question of {moment}", part, browser.text("question"))
        asks("2026-02-13T20:08:00Z", "365 days after the clock", "It is in the future.", "Its day is 2026-02-13.")
        browser.find("question-no").click()
        browser.until("the end", lambda: "Not sent" in browser.text("answer"))
        asks("20:09", "Is 2025-02-13T20:09:00Z right?", "It is in the future.")
        browser.find("question-no").click()
        browser.until("the end", lambda: not browser.shown("question"))
        asks("20:08:30", "Is 2025-02-13T20:08:30Z right?", "It is in the future.")
        browser.press("\ue00c")  # escape
        browser.until("the end", lambda: "Not sent" in browser.text("answer"))
        expect("what was sent", [], at_desk.between.seen)
        browser.by_clock()
        browser.clock(at("20:08:00"), proxy=at("20:15:00"))
        browser.click("look-again")
        browser.until("the clocks", lambda: "This clock is 7 min behind the proxy's." in browser.text("clock"))
        contains("the clocks", f"Last moment in the register: {at('20:05:00')}, 3 min ago.", browser.text("clock"))
        browser.click("sign")
        contains("the question", "before the proxy's clock, which shows", browser.text("question"))
        browser.find("question-no").click()
        browser.clock("2025-02-14T00:30:00Z")
        browser.click("look-again")
        browser.fill("exception", text="After midnight", **{"pass": False})
        contains("the question", "Its day is 2025-02-14. Ceremony 61 is planned for 2025-02-13.",
                 browser.text("question"))
        browser.find("question-box").click()
        browser.click("question-yes")
        browser.until("the answer", lambda: "exception 1" in browser.text("answer"))
        browser.ready()
        browser.fill("exception", text="Still", **{"pass": False})
        browser.until("the answer", lambda: "exception 2" in browser.text("answer"))
        expect("what was sent", 2, len(at_desk.between.seen))


def keyboard_alone(program, browser, _room):
    """A step is signed by keys alone: the skip link, then the button of the next step."""
    with prepared(program, browser, opened()):
        browser.press("\ue004")
        expect("the first stop", "skip", browser.run("return document.activeElement.id"))
        browser.press("\ue007")
        stops = []
        for _ in range(5):
            browser.press("\ue004")
            stops.append(browser.run("return document.activeElement.id"))
            if stops[-1] == "sign":
                break
        expect("the stops to the button", "sign", stops[-1])
        outline = browser.run("return getComputedStyle(document.activeElement).outlineStyle")
        expect("the mark of the focus", "solid", outline)
        browser.press("\ue007")
        browser.until("the answer", lambda: "Step 1 has the seating AA, BB." in browser.text("answer"))
        browser.ready()
        expect("the focus", "next-title", browser.run("return document.activeElement.id"))


UNLABELLED = """
return [...document.querySelectorAll('input, select, textarea, button, a, dialog, section')].filter(one => {
  const name = one.getAttribute('aria-label') || one.labels?.[0]?.textContent || one.textContent
    || document.getElementById(one.getAttribute('aria-labelledby'))?.textContent;
  return !name?.trim() && one.id !== 'question' && one.id !== 'answer';
}).map(one => one.outerHTML.slice(0, 120));
"""
ALIKE = """
const names = [...document.querySelectorAll('main button')].filter(one => one.checkVisibility())
  .map(one => one.textContent);
return names.filter((name, place) => names.indexOf(name) !== place);
"""
TWICE = """
const all = [...document.querySelectorAll('[id]')].map(one => one.id);
return all.filter((id, place) => all.indexOf(id) !== place);
"""


def labels(program, browser, _room):
    """In each view each field, button and link has a label, ids are unique, buttons that are alike have names of their
    own, and nothing is wider than 320 pixels, in light and in dark, however long a word is."""
    item = post(b"/items", b"i", f'"ceremony":61,"item":"CARD1","at":"{at("20:06:00")}"'.encode())
    bags = [act(61, f"bags/BB5118428{n}/seal", f"b{n}", "20:07:00", f'"items":["CARD{n}"],') for n in (1, 2)]
    second = post(b"/items", b"j", f'"ceremony":61,"item":"CARD2","at":"{at("20:06:00")}"'.encode())
    long = [kcr.person(b"p-LL", b"LL", b"L" * 120), act(61, "sheet", "l", "20:07:30", '"way":"in","who":["LL"],'),
            act(61, "exceptions", "e", "20:07:40", f'"text":"{"e" * 1_000}","pass":false,')]
    script = f"step,activity,seats\\n1,{'a' * 500},CA;IW\\n2,Last,CA\\n"
    with prepared(program, browser, [*opened(script), item, second, *bags, *long]):
        for dark in (False, True):
            browser.size(320, 800, dark)
            for view in ("ceremonies", "script", "room", "custody", "record", "reports", "people", "places", "planning",
                         "beginning", "journal"):
                browser.go(view)
                expect(f"without a label in {view}", [], browser.run(UNLABELLED))
                expect(f"ids that are there twice in {view}", [], browser.run(TWICE))
                expect(f"the width of {view}", 320, browser.run("return document.documentElement.scrollWidth"))
                expect(f"buttons that are alike in {view}", [], browser.run(ALIKE))
        browser.size(1280, 900)
        expect("the console", [], browser.log())


def texts_stay_texts(program, browser, _room):
    """Names, activities and remarks that look like HTML are shown as they are, and nothing in them is run. Characters
    that deceive are shown as escapes."""
    bad = '<img src=x onerror="document.title=1"><script>document.title=2</script>'
    written = json.dumps(bad)[1:-1]
    turned, shown = "Bob\u202e\u2066\u200b\u2028 Berg\u00a0X", "Bob\\u202E\\u2066\\u200B\\u2028 Berg\\u00A0X"
    requests = [kcr.person(b"k1", b"AA", written.encode()), kcr.person(b"k2", b"BB", turned.encode()),
                training("AA", "CA"), training("BB", "IW"), plan(61), act(61, "opening", "o", "20:00:00"),
                act(61, "sheet", "s", "20:05:00", '"way":"in","who":["AA","BB"],'),
                act(61, "exceptions", "x", "20:06:00", f'"text":"{written}","pass":false,')]
    with prepared(program, browser, requests):
        for view, name in (("script", "exceptions"), ("room", "inside"), ("people", "people"),
                           ("reports", "stays-table"), ("record", "paper"), ("journal", "journal")):
            browser.go(view)
            browser.until(f"the text of {name}", lambda name=name: bad in browser.text(name))
            if name != "exceptions":
                contains(f"the text of {name}", shown, browser.text(name))
        expect("elements of such texts", 0, browser.run("return document.querySelectorAll('img, main script').length"))
        contains("the title", "kcr desk", browser.driver.title)


# Long lists, reports, pictures

def quickly(browser, what, script, view, *values):
    """Sees that a script says at most a second, at one of five tries, since the machine may do something else. Each try
    comes from another view, or stays in this one for a search."""
    best = None
    for _ in range(5):
        if values:
            browser.go("ceremonies")
        spent = browser.driver.execute_async_script(
            f"const given = [...arguments]; (function () {{ {script} }})(given.pop(), ...given)", view, *values)
        best = spent if best is None else min(best, spent)
        if best <= 1_000:
            return
    raise Wrong(f"{what} took {best:.0f} ms")


def long_lists(program, browser, _room):
    """A script of 400 steps and 1,000 people are shown in under a second each."""
    script = "step,activity,seats\\n" + "".join(f"{n},Step {n},CA;IW;CO*3\\n" for n in range(1, 401))
    people = [kcr.person(b"m%d" % n, kcr.initials(n), b"Person %d" % n) for n in range(1_000)]
    trained = [training(kcr.initials(n).decode(), "IW") for n in range(0, 1_000, 4)]
    planned = post(b"/ceremonies", b"p", f'"number":61,"facility":"EAST","day":"{DAY}","script":"{script}"'.encode())
    requests = [*people, *trained, planned, act(61, "opening", "o", "20:00:00")]
    with prepared(program, browser, requests, "#/ceremonies/61"):
        for view, rows, count in (("people", "#people > li", 1_000), ("script", "#steps > li", 400),
                                  ("room", ".toggle", 60)):
            quickly(browser, view, """
                const [done, view, rows, count] = arguments, begin = performance.now();
                const look = () => document.querySelectorAll(rows).length >= count
                    ? requestAnimationFrame(() => requestAnimationFrame(() => done(performance.now() - begin)))
                    : setTimeout(look, 1);
                document.getElementById(`nav-${view}`).click(); look();""", view, rows, count)
        browser.go("people")
        quickly(browser, "finding", """
            const done = arguments[0], begin = performance.now(), find = document.getElementById('find-people');
            find.value = 'Person 777'; find.dispatchEvent(new Event('input'));
            requestAnimationFrame(() => requestAnimationFrame(() => done(performance.now() - begin)));""", "people")
        expect("found", "1 person found.", browser.text("people-count"))


def reports(program, browser, room):
    """The reports are downloaded byte for byte, and shown as a table and as a picture."""
    with prepared(program, browser, opened(), "#/reports/61", file=room / "kept"):
        browser.driver.execute_cdp_cmd("Browser.setDownloadBehavior", {"behavior": "allow", "downloadPath": str(room)})
        wanted = {"script": "ceremony-61-script.txt", "attendance": "ceremony-61-attendance.csv",
                  "custody": "custody.txt"}
        for name in wanted:
            browser.click(f"get-{name}")
            browser.until(f"the download of {name}", (room / wanted[name]).is_file)
        expect("stays in the picture", 5, browser.run("return document.querySelectorAll('svg.stays .bar').length"))
        contains("the attendance", "Cole, Cy", browser.text("stays-table"))
    for name, words in (("script", ("print", "--ceremony", "61")), ("attendance", ("attendance", "--ceremony", "61")),
                        ("custody", ("custody",))):
        printed = call(program, *words, "--file", room / "kept")[0]
        expect(f"the download {name}", printed, (room / wanted[name]).read_bytes())


def pages(browser):
    """The record on paper: the sizes of its pages and their number."""
    pdf = base64.b64decode(browser.driver.execute_cdp_cmd("Page.printToPDF", {"preferCSSPageSize": True})["data"])
    sizes = re.findall(rb"/MediaBox\s*\[0 0 ([0-9.]+) ([0-9.]+)\]", pdf)
    return {tuple(round(float(side)) for side in size) for size in sizes}, len(sizes)


def record_on_paper(program, browser, room):
    """The record is printed on A4 and on Letter, with the ceremony on each page; the file that is saved has the same
    words, no script and no address, and opens by itself."""
    script = "step,activity,seats\\n" + "".join(f"{n},Step {n},CA;IW\\n" for n in range(1, 101))
    with prepared(program, browser, opened(script), "#/record/61"):
        browser.until("the record", lambda: "not whole yet" in browser.text("record-told"))
        for size, wanted in (("A4", (595, 842)), ("Letter", (612, 792))):
            browser.choose("paper-size", size)
            sizes, number = pages(browser)
            expect(f"the size on {size}", {wanted}, sizes)
            if number < 3:
                raise Wrong(f"{number} pages")
        rule = browser.run("return document.adoptedStyleSheets.map(one => one.cssRules[0].cssText).join()")
        for part in ('"Ceremony 61, EAST"', '"page " counter(page) " of " counter(pages)'):
            contains("the rule of the paper", part, rule)
        browser.driver.execute_cdp_cmd("Emulation.setEmulatedMedia", {"media": "print"})
        seen = [browser.shown(name) for name in ("paper", "nav", "print", "record-told")]
        browser.driver.execute_cdp_cmd("Emulation.setEmulatedMedia", {"media": ""})
        expect("what is on paper", [True, False, False, False], seen)
        told = browser.text("paper")
        browser.driver.execute_cdp_cmd("Browser.setDownloadBehavior", {"behavior": "allow", "downloadPath": str(room)})
        browser.click("save-record")
        saved = room / "ceremony-61-record.html"
        browser.until("the file", saved.is_file)
    text = saved.read_text(encoding="utf-8")
    for word in ("<script", "http-equiv=\"refresh", "href=", "src=", "&gt;", "@import"):
        if word in text:
            raise Wrong(f"the saved record has {word}")
    browser.driver.get(saved.as_uri())
    expect("the saved words", told.split(), browser.driver.find_element("css selector", ".record").text.split())


def another_desk(program, browser, _room):
    """What another desk enters is seen without a click, also in the journal."""
    with prepared(program, browser, opened()) as at_desk:
        at_desk.send([act(61, "steps/1/signature", "g1", "20:07:00"), plan(64, "WEST")])
        browser.until("the next step", lambda: browser.text("sign") == "Sign step 2")
        browser.go("ceremonies")
        expect("the list", 2, len(browser.driver.find_elements("css selector", "#ceremonies > li")))
        browser.go("journal")
        contains("the journal", "Step 1 of ceremony 61 was signed by Ann Abel (AA), Bob Berg (BB).",
                 browser.text("journal"))
        contains("the journal's card", "A passed step was not carried out.", browser.text("journal-card"))
        browser.click("journal-only")
        expect("the commands of the ceremony", "4 commands, the newest first.", browser.text("journal-told"))


def pictures(program, browser, room, folder=None):
    """The main views as PNG, under 150 kB each; they are kept if a folder is given."""
    with prepared(program, browser, [], "#/ceremonies", file=room / "kept") as at_desk:
        stream = kcr.messages((EXAMPLE / "ceremony.http").read_bytes())
        at_desk.send(stream[:PICTURED])
        browser.clock(at("17:40:20"))
        for view, height in (("script", 900), ("room", 780), ("custody", 780)):
            at_desk.open(f"#/{view}/61")
            picture(browser, folder or room, f"desk-{view}", 1120, height)
        at_desk.open("#/script/61")
        browser.size(400, 860, True)
        browser.moment("17:36:00")
        browser.click("sign")
        refused(browser, "late")
        picture(browser, folder or room, "desk-refused", 400, 860, dark=True)
        at_desk.open("#/reports/61")
        browser.run("document.getElementById('stays-picture').scrollIntoView({block: 'center'})")
        picture(browser, folder or room, "desk-attendance", 1120, 640)
        at_desk.send(stream[PICTURED:])
        browser.clock(at("20:30:00"))
        at_desk.open("#/record/61")
        browser.until("the record", lambda: browser.shown("paper"))
        browser.run("document.querySelector('.record .events').scrollIntoView()")
        picture(browser, folder or room, "desk-record", 900, 800)
        browser.size(1280, 900)


def picture(browser, folder, name, width, height, dark=False):
    """Takes a picture of what is seen."""
    browser.size(width, height, dark)
    time.sleep(0.3)
    found = browser.driver.get_screenshot_as_png()
    if len(found) >= MOST_BYTES:
        raise Wrong(f"{name} has {len(found)} bytes")
    (folder / f"{name}.png").write_bytes(found)


BROWSING = [whole_ceremony, one_press, will_be_recorded, away, lost_commands, drafts, typed_while_sending,
            asks_first, refusals_of_ceremonies, refusals_in_doubt, kills.lost_answer, kills.killed,
            kills.register_killed_at_each_act, kills.browser_killed_at_each_act, kills.given_up, doubtful_moments,
            keyboard_alone, labels, texts_stay_texts, long_lists, reports, record_on_paper, another_desk, pictures]
PLAIN = [words_of_refusals, sources, page_served.refuses_foreigners, page_served.bounds_requests]


def played(test, program, browser, more, room):
    """A test with the browser; what Selenium says of a failure is told as any other."""
    from selenium.common.exceptions import WebDriverException
    try:
        test(program, browser, room, **more)
    except WebDriverException as fault:
        raise Wrong(f"{type(fault).__name__}: {fault.msg}; the page says {browser.text('answer')!r}") from fault


def pick(tests, names):
    """The tests with these names, or all."""
    return [test for test in tests if not names or test.__name__ in names]


def main():
    words = sys.argv[1:]
    if not words:
        sys.exit(__doc__)
    program, names = str(pathlib.Path(words[0]).resolve()), words[1:]
    folder = None
    if names[:1] == ["--pictures"]:
        folder, names = pathlib.Path(names[1]).resolve(), names[2:]
    tests = [(test.__name__, test.__doc__, functools.partial(test, program)) for test in pick(PLAIN, names)]
    browsing = pick(BROWSING, names)
    with contextlib.ExitStack() as stack:
        if browsing and desk.has_browser(f"each of {len(browsing)} tests in a browser"):
            browser = stack.enter_context(contextlib.closing(desk.Browser()))
            for test in browsing:
                more = {"folder": folder} if test is pictures else {}
                tests.append((test.__name__, test.__doc__, functools.partial(played, test, program, browser, more)))
        kcr.judge(tests)


if __name__ == "__main__":
    main()
