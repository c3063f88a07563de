#!/usr/bin/env python3
"""The rules of the register that the desk's page knows, by themselves: no browser.

    tests/page_rules.py PROGRAM [NAME ..]

The page derives its state from the accepted commands (`page/known.js`), and knows the first seating
(`page/seating.js`), the rules of a script (`page/script_rules.js`), the lists of `page/batches.js` and the sentences of
refusals (`page/sentences.js`). They run here under `node`. Shown are: that they agree with every kept answer and report
of `cases` and `files`; that seatings agree with the program's over 2,000 random rooms; that each row of a faulty script
is named as the program names it; that the sentence of each pair of refusal and command says what is wrong.

The tests need `node`. The last line is `N passed, M failed`, and the status is 0 where none failed.
"""
import sys

sys.dont_write_bytecode = True  # no files beside these

import json
import random
import re
import subprocess

import journal
import kcr
import page_sentences
from page_sentences import DAY, at
from kcr import HERE, Wrong, call, expect

PAGE = HERE.parent / "page"
LONG = 4 * kcr.SECONDS  # a stream of many hundred requests, on a slow and busy machine
ROLES = ("CA", "IW", "SA", "SSC1", "SSC2", "RKOS", "SW")
FOUND = """
import * as known from "%(page)s/known.js";
import { faultOfScript } from "%(page)s/script_rules.js";
import { lineOf } from "%(page)s/journal.js";
import { recordOf } from "%(page)s/record.js";
import { readScript, readStays } from "%(page)s/reports.js";
import { inWords, ofCommand } from "%(page)s/words.js";
import { readPath } from "%(page)s/paths.js";
import { ROWS, rowOf } from "%(page)s/sentences.js";
import { peopleBatch, boxesBatch, stockBatch } from "%(page)s/batches.js";
import { visible } from "%(page)s/visible.js";
import { checkPlan } from "%(page)s/plan_check.js";
import { readFileSync } from "node:fs";
const given = JSON.parse(readFileSync(0, "utf8"));
const told = (() => { %(script)s })();
console.log(JSON.stringify(told));
"""
REPLAY = """
const replay = commands => {
  const all = known.nothing();
  commands.forEach(command => known.learn(all, command));
  return all;
};
"""


def node(script, given):
    """What a script gives, with the page's modules at hand, for what is `given`."""
    text = FOUND % {"page": PAGE.as_uri(), "script": REPLAY + script}
    run = subprocess.run(["node", "--no-warnings", "--input-type=module", "-e", text], input=json.dumps(given),
                         capture_output=True, text=True, timeout=kcr.SECONDS)
    if run.returncode != 0:
        raise Wrong(f"node: {run.stderr:.2000}")
    return json.loads(run.stdout)


def command_of(message):
    """The path and the members of a command."""
    head, _, body = message.lstrip(b"\r\n").partition(b"\n\r\n" if b"\n\r\n" in message else b"\n\n")
    return {"path": head.split()[1].decode().partition("?")[0], "members": json.loads(body)}


# Every kept answer

def items(exchanges):
    """The accepted commands and the answered questions of a stream, in order, each with its answer's body."""
    seen = set()
    for message, answer in exchanges:
        head, _, body = answer.rpartition(b"\r\n\r\n")
        words = message.lstrip(b"\r\n").split(None, 2)
        accepted = re.match(rb'\{"accepted":([0-9]+)', body)
        if accepted and accepted[1] not in seen:
            seen.add(accepted[1])
            yield command_of(message), json.loads(body)
        elif words[0] == b"GET" and b"200 OK" in head and body.startswith(b"{") and b"/json" in head:
            yield {"ask": words[1].decode().partition("?")[0]}, json.loads(body)


ANSWERS = """
const ask = (all, path) => {
  const [, what, one, two, three] = path.split("/");
  if (what === "people") {
    return { people: known.peopleOf(all) };
  }
  if (what === "custodians") {
    const places = known.holdersOn(all, one);
    return { day: one, places: Object.keys(places).sort().map(place => ({ place, who: places[place] })) };
  }
  if (what === "bags") {
    return { serial: one, spot: all.bags[one].spot, items: [...all.bags[one].items].sort() };
  }
  return { at: three, in: known.presentAt(all, Number(one), three) };
};
return given.map(stream => {
  const all = known.nothing();
  return stream.map(item => {
    try {
      if (item.ask) {
        return structuredClone(ask(all, item.ask));
      }
      known.learn(all, item);
      return { accepted: all.commands.length, ...all.commands.at(-1).told };
    } catch (fault) {
      return String(fault);
    }
  });
});
"""


def kept_answers(_program, _room):
    """After the commands of each case and each kept stream, the page knows what the kept answers say: seatings, numbers
    of exceptions, people with their trainings, holders, bags, and who is in a room."""
    names = sorted(path.stem for path in (HERE / "cases").rglob("*.stdout"))
    streams = [(name, list(items(zip(kcr.case(name), kcr.case_answers(name))))) for name in names
               if b"POST" in kcr.case_file(name).read_bytes() and whole(name)]
    streams += [(folder.name, list(items(kcr.exchanges(folder)))) for folder in kcr.folders()]
    told = node(ANSWERS, [[item for item, _ in stream] for _, stream in streams])
    answers = 0
    for (name, stream), found in zip(streams, told):
        for (item, wanted), got in zip(stream, found):
            expect(f"{name}: {item}", wanted, got)
            answers += 1
    if answers < 1_000:
        raise Wrong(f"only {answers} answers were compared")


def whole(name):
    """Whether a case is a stream of whole requests over an empty register."""
    try:
        return len(kcr.case(name)) == len(kcr.case_answers(name)) and "--file" not in kcr.case_file(
            f"{name}.args").read_text()
    except (AttributeError, IndexError, ValueError, TypeError):
        return False


REPORTS = """
return given.map(commands => {
  const all = replay(commands);
  const { safes, bags, loose } = known.custodyOf(all);
  return { safes, bags, loose, ceremonies: all.ceremonies, stays: Object.fromEntries(Object.keys(all.ceremonies)
    .map(number => [number, known.staysOf(all, Number(number))])) };
});
"""


def custody_text(found):
    """The custody report of what the page knows."""
    lines = [f"safe {name} {found['safes'][name]}" for name in ("1 EAST", "2 EAST", "1 WEST", "2 WEST")]
    for bag in found["bags"]:
        lines += [f"{bag['serial']} {bag['spot']}", *(f"  {item}" for item in bag["items"])]
    loose = sorted((item, facility) for facility, items in found["loose"].items() for item in items)
    lines += [f"loose {facility} {item}" for item, facility in loose]
    return "".join(f"{line}\n" for line in lines).encode()


def stays_text(stays):
    """The attendance of what the page knows."""
    def field(text):
        return '"' + text.replace('"', '""') + '"' if re.search('[,"\r\n]', text) else text
    rows = [f"{one['who']},{field(one['name'])},{one['since']},{one['until'] or ''}\n" for one in stays]
    return ("who,name,in,out\n" + "".join(rows)).encode()


def script_text(ceremony):
    """The annotated script of what the page knows, without the seat texts of open steps."""
    lines = ["Ceremony {number} {facility} {day} {state}".format(**ceremony)]
    lines += [f"Opened {ceremony['opened']}"] if ceremony["opened"] else []
    for step in ceremony["steps"]:
        if step["state"] == "open":
            lines.append(f"{step['number']} open {step['activity']}")
            continue
        lines.append(f"{step['number']} {step['state']} {step['at']} {step['activity']}")
        lines += [f"  {seat} {who}" for seat, who in zip(step["seats"], step["seating"])]
    for one in ceremony["exceptions"]:
        passed = f"step {one['step']} " if one["step"] else ""
        lines.append(f"Exception {one['number']} {one['at']} {passed}{one['text']}")
    lines += [f"Closed {ceremony['closed']}"] if ceremony["closed"] else []
    return "".join(f"{line}\n" for line in lines).encode()


def kept_reports(_program, _room):
    """After each kept stream the page knows the three reports."""
    folders = kcr.folders()
    commands = [[command_of(message) for message, _ in kcr.commands(folder)] for folder in folders]
    compared = 0
    for folder, found in zip(folders, node(REPORTS, commands)):
        for words, wanted in kcr.reports(folder):
            number = words[-1]
            if words[0] == "custody":
                got = custody_text(found)
            elif words[0] == "attendance":
                got = stays_text(found["stays"][number])
            else:
                got = script_text(found["ceremonies"][number])
                wanted = re.sub(rb"(?m)^  seats .*\n", b"", wanted)
            expect(f"{words} of {folder.name}", wanted, got)
            compared += 1
    if compared < 5:
        raise Wrong(f"only {compared} reports were compared")


# The journal and the record

LINES = """
return given.map(commands => {
  const all = replay(commands);
  return all.commands.map((_, place) => lineOf(all, place + 1));
});
"""
RECORDS = """
return given.map(({ commands, script, stays }) => recordOf(replay(commands), readScript(script), readStays(stays)));
"""


def lines_of_commands(_program, _room):
    """The page's journal has the lines of `kcr journal`, over each kept stream."""
    folders = kcr.folders()
    told = node(LINES, [[command_of(message) for message, _ in kcr.commands(folder)] for folder in folders])
    for folder, lines in zip(folders, told):
        wanted = [(ceremony, line.decode()) for ceremony, line in journal.journal_of(kcr.commands(folder))]
        got = [(line["ceremony"], f"{line['number']:6}  {line['when']:20}  {line['sentence']}\n") for line in lines]
        for pair in zip(wanted, got, strict=True):
            expect(f"a line of {folder.name}", *pair)


def event_text(event, number, named):
    """What an event of a record says, in the words of the journal."""
    what = event.get("act") or event["kind"]
    ceremony = f"in ceremony {number}."
    if what == "step":
        people = named(event["seating"])
        return f"Step {event['number']} of ceremony {number} was signed by {people}."
    if what == "exception":
        return f"Exception {event['number']} of ceremony {number}", event["step"], event["text"]
    if what in ("open", "shut"):
        return f"{named([event['by']])} {'opened' if what == 'open' else 'shut'} safe {event['safe']} {ceremony}"
    if what == "item":
        return f"Item {event['item']} was added {ceremony}"
    facility = event.get("spot", "").rpartition(" ")[0]
    told = {"seal": f"sealed with {', '.join(event['items'])}", "take": "taken to the table", "cut": "cut open",
            "put": f"put into {facility}"}[what]
    return f"Bag {event['serial']} was {told} {ceremony}"


def records(_program, _room):
    """The record of each ceremony of the kept streams tells its steps, exceptions and acts on custody in the order of
    the journal, and its people, times and seatings as the reports do."""
    given, of = [], []
    for folder in kcr.folders():
        reports = {words: text for words, text in kcr.reports(folder)}
        for words in reports:
            if words[0] == "print" and b" planned\n" not in reports[words]:
                stays = reports[("attendance", *words[1:])]
                given.append({"commands": [command_of(message) for message, _ in kcr.commands(folder)],
                              "script": reports[words].decode(), "stays": stays.decode()})
                of.append((folder, int(words[-1]), reports[words], stays))
    events = 0
    for (folder, number, script, stays), record in zip(of, node(RECORDS, given), strict=True):
        compare_events(folder, number, record)
        events += len(record["events"])
        rows = [line.rsplit(",", 2)[1:] for line in stays.decode().split("\n")[1:-1]]
        told = sorted([stay["since"], stay["until"] or ""] for one in record["people"] for stay in one["stays"])
        expect(f"the times of {folder.name}", sorted(rows), told)
        for event in record["events"]:
            for seat, who in zip(event.get("seats", []), event.get("seating", [])):
                if f"\n  {seat} {who}\n".encode() not in script:
                    raise Wrong(f"{folder.name}: {seat} {who} is not in the script")
        codes = {code for code, _ in record["legend"]} | {"visitor"}
        used = {role.partition("-")[0] for one in record["people"] for role in one["role"].split(", ")}
        used |= {seat for event in record["events"] for seat in event.get("seats", [])}
        expect(f"codes of {folder.name} without a meaning", set(), used - codes)
        steps = [one for one in record["events"] if one["kind"] == "step"]
        expect("the steps", list(range(1, len(steps) + 1)), [one["number"] for one in steps])
    if events < 100:
        raise Wrong(f"only {events} events were compared")


def compare_events(folder, number, record):
    """Compares the events of a record with the lines of the journal that are about steps, exceptions and custody."""
    names = {}
    for message, _ in kcr.commands(folder):
        command = command_of(message)
        if command["path"] == "/people":
            names[command["members"]["who"]] = command["members"]["name"]
    lines = [line.decode()[30:-1] for ceremony, line in journal.journal_of(kcr.commands(folder)) if ceremony == number]
    wanted = [line for line in lines if re.match("Step |Exception |Item |Bag ", line) or re.search(
        r" (opened|shut) safe [12] in ceremony", line)]
    told = [event_text(event, number, lambda people: ", ".join(f"{names[who]} ({who})" for who in people))
            for event in record["events"] if event.get("state") not in ("open", "passed")]
    for line, text in zip(wanted, told, strict=True):
        if isinstance(text, tuple):
            head, step, tail = text
            passed = f" passed step {step} with " if step else ": "
            if not (line.startswith(head + passed) and line.endswith(f": {tail}")):
                raise Wrong(f"{folder.name}: {line!r} is told as {text!r}")
        elif sorted(line) != sorted(text) if "sealed" in line else line != text:
            raise Wrong(f"{folder.name}: {line!r} is told as {text!r}")


# Rooms

ROOMS, STEPS, PEOPLE = 2_000, 190, 24  # 200 exceptions are the most
SEATS = ("CA", "IW", "SA", "SSC1", "SW", "CO", "CO/1", "CO/3", "RKSH", "RKSH/2")


class Rooms:
    """A ceremony with random seats, whose room changes before each step. AA and BB stay: so a step that cannot be
    signed can be passed over."""

    def __init__(self, chance):
        self.chance, self.requests, self.inside, self.second = chance, [], [], 1
        self.who = ["AA", "BB"] + [f"{kcr.initials(n).decode()[3:]}X" for n in range(2, 2 + PEOPLE)]
        officers, staff = self.who[2:13], self.who[13:]
        places = [f"CO-EAST-{n}" for n in range(1, 7)] + [f"RKSH-{n}" for n in range(1, 6)]
        self.roles = {"AA": ["CA", "IW", "SA"], "BB": ["CA", "IW"]}
        self.roles |= {who: chance.sample(ROLES, chance.randrange(0, 4)) for who in staff}
        self.places = dict(zip(chance.sample(officers, len(officers)), places))
        self.steps = [self.some_seats() for _ in range(STEPS)]

    def some_seats(self):
        """Random seats of a step."""
        seats = [self.chance.choice(SEATS) for _ in range(self.chance.randrange(1, 6))]
        return seats + ["CO"] * self.chance.choice((0, 0, 2, 3))

    def post(self, path, **members):
        """Adds a command."""
        body = json.dumps({"key": f"k{len(self.requests)}", **members}, separators=(",", ":"))
        self.requests.append(kcr.request(b"POST", path.encode(), body.encode()))

    def prepare(self):
        """Adds the commands before the first step."""
        for who in self.who:
            self.post("/people", who=who, name="Somebody")
        for who, role in ((who, role) for who, roles in self.roles.items() for role in roles):
            self.post(f"/people/{who}/roles", role=role, **{"from": "2025-01-01", "until": "2025-12-31"})
        for who, place in self.places.items():
            self.post("/custodians", place=place, who=who, day="2025-01-01")
        script = "step,activity,seats\n" + "".join(f"{number},Step,{';'.join(seats)}\n"
                                                   for number, seats in enumerate(self.steps, 1))
        self.post("/ceremonies", number=61, facility="EAST", day=DAY, script=script)
        self.post("/ceremonies/61/opening", at=at(0))
        self.move("in", ["AA", "BB"])

    def move(self, way, who):
        """Lets people in or out."""
        if who:
            self.second += 1
            self.post("/ceremonies/61/sheet", way=way, who=who, at=at(self.second))
            self.inside = self.inside + who if way == "in" else [one for one in self.inside if one not in who]

    def fits(self, seat, who):
        """Whether somebody fits a seat."""
        kind, _, number = seat.partition("/")
        place = self.places.get(who, "")
        if kind not in ("CO", "RKSH"):
            return seat in self.roles.get(who, ())
        return place.startswith(f"{kind}-") and number in ("", place[-1])

    def can_fill(self, seats, people):
        """Whether people can fill seats, by trying."""
        if not seats:
            return True
        return any(self.can_fill(seats[1:], people - {who}) for who in people if self.fits(seats[0], who))

    def play(self):
        """Adds all commands: each step is signed; if that must be refused, it is passed over."""
        self.prepare()
        for number, seats in enumerate(self.steps, 1):
            some = self.chance.sample(self.who[2:], self.chance.randrange(1, 7))
            self.move("in", [who for who in some if who not in self.inside])
            self.move("out", [who for who in some if who in self.inside and self.chance.randrange(2)])
            self.second += 1
            self.post(f"/ceremonies/61/steps/{number}/signature", at=at(self.second))
            order = sorted(seats, key=lambda seat: sum(self.fits(seat, who) for who in self.inside))
            if not self.can_fill(order, frozenset(self.inside)):
                self.post("/ceremonies/61/exceptions", text="Not signed", at=at(self.second), **{"pass": True})
        return self.requests


def random_rooms(program, _room):
    """In 2,000 random rooms the page finds the seating that the program answers; if the program refuses, none."""
    chance = random.Random(74)
    rooms = 0
    while rooms < ROOMS:
        rooms += compare_rooms(program, Rooms(chance).play())


def compare_rooms(program, requests):
    """Compares the seatings of a stream; returns how many."""
    answers = kcr.answers(call(program, "run", stream=b"".join(requests), seconds=LONG)[0], requests)
    given, wanted = [], []
    for request, answer in zip(requests, answers):
        body = json.loads(answer.rpartition(b"\r\n\r\n")[2])
        if body.get("number") not in (None, 32):
            raise Wrong(f"a request of rooms was refused: {request!r} {body}")
        given.append({**command_of(request), "accepted": "accepted" in body})
        if given[-1]["path"].endswith("/signature"):
            wanted.append(body.get("seating"))
    got = node(SEATINGS, given)
    expect("how many", len(wanted), len(got))
    for place, pair in enumerate(zip(wanted, got)):
        expect(f"room {place}", *pair)
    if None not in wanted or all(one is None for one in wanted):
        raise Wrong("all rooms are alike")
    return len(wanted)


SEATINGS = """
const all = known.nothing();
const found = [];
for (const { path, members, accepted } of given) {
  const step = /steps\\/(\\d+)\\/signature$/.exec(path);
  if (step) {
    const { seats } = all.ceremonies[61].steps[step[1] - 1];
    found.push(known.seatingAt(all, 61, seats, members.at));
  }
  if (accepted) {
    known.learn(all, { path, members });
  }
}
return found;
"""


# Sentences

WORDS = """
const all = known.nothing();
const met = new Set();
const sentences = given.map(({ path, members, body }) => {
  if (!body) {
    known.learn(all, { path, members });
    return null;
  }
  const found = ofCommand(body, { path, members }, all);
  met.add(`${found?.row} ${readPath(path).kind}`);
  return found?.sentence ?? inWords(body, { path, members }, all).sentence;
});
return { sentences, unmet: ROWS.flatMap(([kinds, number, , say], place) => kinds.filter(kind =>
  !met.has(`${place} ${kind}`)).map(kind => `${kind} ${number} ${say}`)) };
"""


def sentences(program, _room):
    """The page's sentence for each refusal of each command says what is wrong; each row of the table is met by each
    command that it names."""
    play = page_sentences.whole_play()
    answers = kcr.answers(call(program, "run", stream=b"".join(play.requests), seconds=LONG)[0], play.requests)
    given = []
    for request, wanted, answer in zip(play.requests, play.wanted, answers):
        body = json.loads(answer.rpartition(b"\r\n\r\n")[2])
        expect(f"the refusal of {request!r:.300}", wanted and wanted[0], body.get("number"))
        given.append({**command_of(request), "body": body if wanted else None})
    told = node(WORDS, given)
    for item, wanted, sentence in zip(given, play.wanted, told["sentences"]):
        if wanted and wanted[1] not in sentence:
            raise Wrong(f"{item}: no {wanted[1]!r} in {sentence!r}")
        if wanted and ("undefined" in sentence or "null" in sentence or "`" in sentence):
            raise Wrong(f"{item}: {sentence!r}")
    expect("pairs of the table that were not met", [], told["unmet"])


LISTS = """
const all = replay(given.commands);
const told = ({ faults, commands }) => ({ faults, commands: commands.map(({ path, members }) => ({ path, members })) });
return {
  people: told(peopleBatch(all, given.people)), boxes: told(boxesBatch(all, given.boxes, "EAST")),
  stock: told(stockBatch(all, given.stock, all.ceremonies[61])), wrong: [peopleBatch(all, given.wrong),
    boxesBatch(all, given.wrongBoxes, "EAST"), stockBatch(all, given.wrongStock, all.ceremonies[61])]
    .flatMap(batch => batch.faults),
  plan: checkPlan(all, 61, ["AA", "BB", "EA"]), shown: given.texts.map(visible),
};
"""


def lists(_program, _room):
    """A list becomes the commands that the register lacks, and its faults name their rows. The check of a plan names
    who covers which seats. Characters that deceive become escapes."""
    plan = {"number": 61, "facility": "EAST", "day": DAY,
            "script": "step,activity,seats\n1,A,CA;IW\n2,B,CO*2\n3,C,IW;CA\n"}
    year = {"from": "2025-01-01", "until": "2025-12-31"}
    commands = [("/people", {"who": "AA", "name": "Ann Abel"}), ("/people/AA/roles", {"role": "CA", **year}),
                ("/people", {"who": "EA", "name": "Eva"}), ("/custodians", {"place": "CO-EAST-1", "who": "EA",
                                                                            "day": "2025-01-01"}),
                ("/boxes", {"facility": "EAST", "box": 3, "place": "CO-EAST-1"}), ("/ceremonies", plan),
                ("/ceremonies/61/opening", {"at": at(0)}), ("/items", {"ceremony": 61, "item": "HSM4", "at": at(1)})]
    told = node(LISTS, {
        "commands": [{"path": path, "members": {"key": "k", **members}} for path, members in commands],
        "people": "initials,name,role,from,until\naa,Ann Abel,ca,2025-01-01,2025-12-31\nbb,\"Berg, Bob\",IW,2025-01-01,"
                  "2025-12-31\nbb,,SW,2025-01-01,2025-12-31\nVV,Vi\nEA,,CO-EAST-1,2025-01-01\n"
                  "EB,Eli,co-east-2,2025-01-01,",
        "boxes": "3,CO-EAST-1\n4,CO-EAST-2\n", "stock": "serial,items,store\nbb51184287,hsm4 card1,Safe 1\n",
        "wrong": "A,Ann\nAA,Other\nXX\nYY,Y,boss,2025-01-01,2025-12-31\nYY,Y,CA,soon,2025-12-31\n",
        "wrongBoxes": "0,CO-EAST-1\n5,CO-WEST-1\n3,CO-EAST-2\n",
        "wrongStock": "bb-1,HSM4,3\nBB51184288,,3\nBB51184288,x,3\n"
        "BB51184288,HSM4,9\n",
        "texts": ["Ann", "a\u202eb", "\u2066\u200b\u2028", "a\u00a0b", "\U000e0041", "\u3164"]})
    compare_lists(told)


def compare_lists(told):
    """Compares what lists become with what they must."""
    bob = {"path": "/people/BB/roles"}
    year = {"from": "2025-01-01", "until": "2025-12-31"}
    expect("people", {"faults": [], "commands": [
        {"path": "/people", "members": {"who": "BB", "name": "Berg, Bob"}}, {**bob, "members": {"role": "IW", **year}},
        {**bob, "members": {"role": "SW", **year}}, {"path": "/people", "members": {"who": "VV", "name": "Vi"}},
        {"path": "/people", "members": {"who": "EB", "name": "Eli"}},
        {"path": "/custodians", "members": {"place": "CO-EAST-2", "who": "EB", "day": "2025-01-01"}}]}, told["people"])
    expect("boxes", {"faults": [], "commands": [
        {"path": "/boxes", "members": {"facility": "EAST", "box": 4, "place": "CO-EAST-2"}}]}, told["boxes"])
    bag = "/ceremonies/61/bags/BB51184287"
    expect("stock", {"faults": [], "commands": [
        {"path": "/items", "members": {"ceremony": 61, "item": "CARD1"}},
        {"path": f"{bag}/seal", "members": {"items": ["HSM4", "CARD1"]}},
        {"path": f"{bag}/put", "members": {"to": "safe1"}}]}, told["stock"])
    wanted_faults = ["Row 1: 'A'", "Row 2: AA is Ann Abel already", "Row 3: XX has no name", "Row 4: 'BOSS' is no role",
                      "Row 5: a day is like", "Row 1: '0'", "Row 2: 'CO-WEST-1' is no place", "Row 3: box 3 is that of",
                      "Row 1: 'BB-1'", "Row 2: a bag has an item", "Row 3: 'X'",
                     "Row 4: '9' is neither safe1 nor a box"]
    expect("faults", wanted_faults,
           [fault[:len(wanted)] for fault, wanted in zip(told["wrong"], wanted_faults, strict=True)])
    expect("the plan", [([1], [["AA"], []], None), ([2], [["EA"], ["EA"]], None), ([3], [[], ["AA"]], None)],
           [(one["steps"], one["cover"], one["seating"]) for one in told["plan"]])
    expect("escapes", ["Ann", "a\\u202Eb", "\\u2066\\u200B\\u2028", "a\\u00A0b", "\\u{E0041}", "\\u3164"],
           told["shown"])


TESTS = [lists, kept_answers, kept_reports, lines_of_commands, records, random_rooms, sentences]

if __name__ == "__main__":
    kcr.judge_installed(TESTS, dict.fromkeys(TESTS, "node"), __doc__)
