"""A ceremony of WEST, from an empty register to its record, played in the desk's page: 60 steps, 16 people, 10 bags, an
exception and somebody who comes late. `page.py` runs it.
"""
import csv
import io
import re

from desk import contains
from kcr import Wrong, call, expect

DAY = "2025-03-06"
NUMBER = 71
STAFF = (("AL", "Ada Lund", "CA"), ("BO", "Ben Okoro", "CA"), ("CD", "Chi Dang", "IW"), ("DS", "Dora Silva", "SA"),
         ("EQ", "Erik Quist", "SSC1"), ("FM", "Fay Moreau", "SSC2"), ("GT", "Tanaka, Gil", "RKOS"),
         ("HN", "Hana Novák", "SW"))
OFFICERS = (("JB", "Joan O'Brien", 1), ("KV", "Kofi Vance", 2), ("LR", 'Lea "Lou" Rossi', 3), ("MP", "Mia Pohl", 4),
            ("NI", "Nils Iversen", 5))
VISITORS = (("VA", "Vic Amsel"), ("VB", "Viv Brandt"), ("VC", "Val Conti"))
BOXES = "".join(f"{100 + place},CO-WEST-{place}\n" for _, _, place in OFFICERS)
BAGS = [(f"WB5118{number:04}", f"CARD{number}", str(100 + number)) for number in range(1, 6)] + [
    (f"WA5118{number:04}", f"UNIT{number}", "safe1") for number in range(1, 6)]
STOCK = "serial,items,store\n" + "".join(f"{serial},{item},{store}\n" for serial, item, store in BAGS)


def people_list():
    """The list of people, as one would paste it."""
    def field(text):
        return '"' + text.replace('"', '""') + '"' if any(sign in text for sign in ',"') else text
    lines = ["initials,name,role,from,until"]
    lines += [f"{who},{field(name)},{role},2025-01-01,2025-12-31" for who, name, role in STAFF]
    lines += [f"{who},{field(name)},CO-WEST-{place},2025-01-01," for who, name, place in OFFICERS]
    lines += [f"{who},{field(name)},,," for who, name in VISITORS]
    return "".join(f"{line}\n" for line in lines)


def seats_of(number):
    """The seats of a step."""
    return ("CA;IW", "CA", "CA;IW;CO*3", "SSC1;IW", "CA;SA", "SSC2;IW", "CO/1;IW", "CA;IW;SW", "CO;CO/2", "CA;RKOS")[
        number % 10]


def script():
    """The script."""
    rows = [f'{number},"Step {number}, as the script has it",{seats_of(number)}\n' for number in range(1, 61)]
    return "step,activity,seats\n" + "".join(rows)


def seating_of(number):
    """Who is recorded for a step, by the rule: the first by initials. BO is outside, so the administrator is AL."""
    first = {"CA": "AL", "IW": "CD", "SA": "DS", "SSC1": "EQ", "SSC2": "FM", "RKOS": "GT", "SW": "HN", "CO/1": "JB",
             "CO/2": "KV"}
    told = {"CO*3": ["JB", "KV", "LR"]}
    if seats_of(number) == "CO;CO/2":
        return ["JB", "KV"]
    return [who for seat in seats_of(number).split(";") for who in told.get(seat, [first.get(seat)])]


# The play

class Clock:
    """The clocks of the page and of the proxy, which go on only when they are told."""

    def __init__(self, browser):
        self.browser, self.second = browser, 0

    def go_on(self, seconds=20):
        """Lets some seconds pass."""
        self.second += seconds
        hours = 18 + self.second // 3600
        self.browser.clock(f"{DAY}T{hours:02}:{self.second // 60 % 60:02}:{self.second % 60:02}Z")


def send_list(browser, name):
    """Sends a list that was pasted. However long all of it takes, the page must go on from command to command."""
    told = browser.text(f"{name}-told")
    browser.again(lambda: browser.click_on(f"{name}-send"))
    while not re.fullmatch(r"[0-9]+ commands sent\.", told):
        browser.until(f"the next command of {name}", lambda: browser.text(f"{name}-told") != told)
        told = browser.text(f"{name}-told")
        if told.startswith("Stopped"):
            raise Wrong(f"{name}: {told} {browser.text('answer')}")
    browser.ready()


def begin(browser, room):
    """People, boxes and the plan, from lists: that of people is a file, and the others are pasted."""
    file = room / "people.csv"
    file.write_text(people_list(), encoding="utf-8")
    browser.find("people-list-file").send_keys(str(file))
    browser.until("the list", lambda: "Enter AL, Ada Lund" in browser.text("people-list-lines"))
    send_list(browser, "people-list")
    browser.choose("boxes-list-facility", "WEST")
    browser.paste("boxes-list-list", BOXES)
    send_list(browser, "boxes-list")
    browser.go("planning")
    expect("the facility", "WEST", browser.find("plan-facility").get_attribute("value"))
    for number, text in ((NUMBER, script()), (70, "step,activity,seats\n1,Take stock,CA\n")):
        browser.paste("plan-script", text)
        browser.fill("plan", number=str(number), facility="WEST", day=DAY)
        contains("the answer", "Accepted", browser.text("answer"))


def choose(browser, number, view):
    """Goes to a view of a ceremony."""
    browser.go("ceremonies")
    browser.fill("choose", number=str(number))
    browser.ready()
    browser.go(view)


def let(browser, clock, way, who):
    """Lets people in or out."""
    browser.go("room")
    clock.go_on()
    browser.fill(f"way-{way}", who=who)
    browser.agree()
    contains("the answer", "Accepted", browser.text("answer"))


def act_on(browser, clock, button, *parts):
    """Presses a button, and sees what came of it."""
    clock.go_on()
    browser.click(button)
    browser.agree()
    contains(f"the answer to {button}", "Accepted", browser.text("answer"))
    for part in parts:
        contains(f"the answer to {button}", part, browser.text("answer"))


def take_stock(browser, clock):
    """A ceremony that only takes stock: the bags come into the register and into the safes."""
    choose(browser, 70, "script")
    act_on(browser, clock, "open")
    let(browser, clock, "in", "AL EQ FM JB KV LR MP NI")
    browser.go("script")
    for safe, who in (("1", "EQ"), ("2", "FM")):
        clock.go_on()
        browser.safe(safe, who)
    browser.go("beginning")
    clock.go_on()
    browser.paste("stock-list-list", STOCK)
    expect("needs that are not met", [], browser.driver.find_elements("css selector", "#stock-needs .unmet"))
    send_list(browser, "stock-list")
    browser.go("script")
    for safe, who in (("1", "EQ"), ("2", "FM")):
        clock.go_on()
        browser.safe(safe, who)
    act_on(browser, clock, "sign")
    let(browser, clock, "out", "AL EQ FM JB KV LR MP NI")
    browser.go("script")
    act_on(browser, clock, "close")


def play_steps(browser, clock):
    """The ceremony: people come, all bags are taken, two are cut and sealed anew, all are put back."""
    choose(browser, NUMBER, "script")
    contains("the check of the plan", "can fill every step", browser.text("plan-verdict"))
    act_on(browser, clock, "open")
    let(browser, clock, "in", "al cd ds eq fm gt hn jb kv lr mp ni va vb")
    browser.go("script")
    for number in range(1, 61):
        contains("who will be recorded", seating_of(number)[0], browser.text("recorded"))
        act_on(browser, clock, "sign", f"Step {number} has the seating {', '.join(seating_of(number))}.")
        if number == 10:
            take_bags(browser, clock)
        elif number == 30:
            put_bags(browser, clock)
        elif number == 40:
            browser.fill("exception", text="VC came late, and brought a pen", **{"pass": False})
            let(browser, clock, "in", "VC")
            browser.go("script")
    let(browser, clock, "out", "al cd ds eq fm gt hn jb kv lr mp ni va vb vc")
    browser.go("script")
    act_on(browser, clock, "close")
    contains("the facts", f"closed since {DAY}T", browser.text("facts"))


def turn_safes(browser, clock):
    """Opens both safes, or shuts them."""
    for safe in (1, 2):
        act_on(browser, clock, f"safe-{safe}-send")


def take_bags(browser, clock):
    """Takes all bags out of the safes, beside the script."""
    turn_safes(browser, clock)
    for serial, _, _ in BAGS:
        act_on(browser, clock, f"take-{serial}")
    turn_safes(browser, clock)


def put_bags(browser, clock):
    """Cuts a bag, seals its item anew, and puts all bags away."""
    first, item, _ = BAGS[0]
    act_on(browser, clock, f"cut-{first}")
    clock.go_on()
    browser.fill("seal", items=item.lower(), serial="wb51189999")
    turn_safes(browser, clock)
    for serial, _, store in [("WB51189999", item, "101"), *BAGS[1:]]:
        browser.choose(f"to-{serial}", store)
        act_on(browser, clock, f"put-{serial}")
    turn_safes(browser, clock)


CELLS = """
return [...document.querySelectorAll(`.record .${arguments[0]} tbody tr`)].map(row => [...row.cells].map(cell =>
  cell.innerText.trim()));
"""


def compare_record(program, browser, room):
    """The record tells what `kcr print`, `attendance`, `custody` and `journal` print, row by row."""
    browser.go("record")
    browser.until("the record", lambda: "whole record" in browser.text("record-told"))
    events = browser.run(CELLS, "events")

    def printed(*words):
        return call(program, *words, "--file", room / "played")[0].decode()
    compare_steps(events, printed("print", "--ceremony", NUMBER))
    lines = printed("journal", "--ceremony", NUMBER).splitlines()
    compare_acts([row for row in events if row[1].startswith("Custody.")], lines)
    stays = list(csv.reader(io.StringIO(printed("attendance", "--ceremony", NUMBER))))[1:]
    told = [[who, name, since, until] for who, name, _, all_since, all_until in browser.run(CELLS, "people")
            for since, until in zip(all_since.split("\n"), all_until.split("\n"), strict=True)]
    expect("the stays", sorted([who, name, since[11:19], until[11:19]] for who, name, since, until in stays),
           sorted(told))
    compare_custody(browser, printed("custody"))
    contains("the number of commands", f"{len(lines)} of them name ceremony {NUMBER}", browser.text("paper"))


def compare_steps(events, script):
    """Compares the steps and the exceptions of the record with the annotated script: number, activity, seats with
    initials and name, and time."""
    names = {one[0]: one[1] for one in STAFF + OFFICERS + VISITORS}
    steps, exceptions = [], []
    for line in script.splitlines():
        if step := re.fullmatch(r"(\d+) signed \S+T(\S+)Z (.*)", line):
            steps.append([step[1], step[3], [], step[2]])
        elif seat := re.fullmatch(r"  (\S+) ([A-Z]+)", line):
            steps[-1][2].append(f"{seat[1]} {seat[2]} {names[seat[2]]}")
        elif exception := re.fullmatch(r"Exception (\d+) \S+T(\S+)Z (.*)", line):
            exceptions.append(["", f"Exception {exception[1]}. {exception[3]}", exception[2]])
    expect("the steps", [[number, activity, "\n".join(seats), time] for number, activity, seats, time in steps],
           [row for row in events if row[0]])
    for number in range(1, 61):
        expect(f"step {number}", seating_of(number), [seat.split()[1] for seat in steps[number - 1][2]])
    expect("the exceptions", exceptions, [row for row in events if row[1].startswith("Exception")])


def compare_acts(acts, lines):
    """Compares the acts on custody of the record with the lines of the journal."""
    wanted = [line for line in lines if re.search(r"  Bag |  Item | (opened|shut) safe ", line)]
    for line, row in zip(wanted, acts, strict=True):
        contains("an act on custody", re.search(r"W[AB]\d+|safe \d", line)[0].lower(), row[1].lower())
        expect("its time", line[8:28][11:19], row[2])


def compare_custody(browser, report):
    """Compares the custody at the end of the record with the report: safes, bags with their places and items, and loose
    items."""
    bags, paper = [], browser.text("paper")
    for line in report.splitlines():
        words = line.split()
        if line.startswith("  "):
            bags[-1][2].append(words[0])
        elif words[0] == "safe" and words[2] == "WEST":
            contains("a safe", f"Safe {words[1]} of WEST is {words[3]}.", paper)
        elif words[0] not in ("safe", "loose"):
            bags.append([words[0], " ".join(words[1:]), []])
    expect("the bags", [[serial, spot, ", ".join(items)] for serial, spot, items in bags if spot.endswith("WEST")],
           browser.run(CELLS, "bags"))
    loose = [line.split()[2] for line in report.splitlines() if line.startswith("loose WEST")]
    contains("loose items", f"Loose items: {', '.join(loose) or 'none'}.", paper)
