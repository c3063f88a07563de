#!/usr/bin/env python3
"""A second reading of the register's rules, for auditors: it decides each command anew, and prints the reports.

    kcr export --file register.db > export.http
    tools/check.py export.http                         each request and its reply
    tools/check.py export.http --answers FILE          compares the replies with these
    tools/check.py export.http --script 61             the annotated script of ceremony 61
    tools/check.py export.http --attendance 61         its attendance
    tools/check.py export.http --custody               where all bags and items are

The export may be any stream of whole requests. FILE has the answers of `kcr run` or `kcr serve` to it, or the replies
that a register's file keeps, one a line: `sqlite3 register.db 'SELECT reply FROM keys ORDER BY accepted'`.

Written from docs/API.md, docs/REFUSALS.md and docs/DEFINITIONS.md and from no code of the register, to be read whole:
first what a request is, then what the register knows, the conditions and effects of each command, the seats, and at
the end questions and reports. Numbers in the code are those of the refusals. Days and moments are compared as texts:
their order is that of time. Left out are the refusals 1 to 6 (the cut of a stream), 33 to 35, and the limit of
4,000,000,000 commands.

The status is 0 if nothing was refused or, with answers, if each answer is right; 1 if not; 2 if the input is no such
stream.
"""
import argparse
import csv
import datetime
import io
import json
import pathlib
import re
import sys

ROLES = ["CA", "IW", "SA", "SSC1", "SSC2", "RKOS", "SW"]
FACILITIES = ["EAST", "WEST"]
PLACES = [f"{kind}-{n}" for kind in ("CO-EAST", "CO-WEST", "RKSH") for n in range(1, 8)]
MOST_IN_A_ROOM, MOST_ROWS_IN, MOST_EXCEPTIONS, MOST_STEPS, LAST_NUMBER = 128, 1_000, 200, 400, 9_999
WORDS = {  # of the refusals by number; the status is 409 but of those below
    7: "path", 8: "method", 9: "json", 10: "form", 11: "key", 12: "unknown", 13: "taken", 14: "range", 15: "apart",
    16: "held", 17: "vacant", 18: "settled", 19: "script", 20: "state", 21: "busy", 22: "late", 23: "order", 24: "turn",
    25: "crowd", 26: "lone", 27: "full", 28: "safe", 29: "where", 30: "absent", 31: "unfinished", 32: "short"}
STATUS = {7: 404, 8: 405, 9: 400, 10: 422, 12: 404, 14: 422, 19: 422}


class NoStream(Exception):
    """The input is no stream of whole requests, or no answers to one."""


class Refused(Exception):
    """A refusal: its number, and the members that it carries."""

    def __init__(self, number, **carried):
        super().__init__(number)
        self.number, self.carried = number, carried

    def answer(self):
        """The status and the text of the answer."""
        told = {"number": self.number, "refusal": WORDS[self.number], **self.carried}
        return STATUS.get(self.number, 409), compact(told)


def refuse_if(condition, number, **carried):
    """Refuses a request if the condition holds."""
    if condition:
        raise Refused(number, **carried)


def compact(value):
    """A value as JSON without blanks, with members in byte order."""
    return json.dumps(value, ensure_ascii=False, separators=(",", ":"), sort_keys=True)


# Values: whether a JSON value is one

def text_like(pattern):
    """The texts that match a pattern whole."""
    return lambda value: isinstance(value, str) and re.fullmatch(pattern, value) is not None


def line_of(most):
    """The texts of 1 to this many bytes without control characters."""
    def is_line(value):
        return (isinstance(value, str) and 1 <= len(value.encode()) <= most
                and not any(one < " " or one == "\x7f" for one in value))
    return is_line


def is_day(value):
    """A date that exists, of 2000 to 2099."""
    try:
        return text_like("20[0-9]{2}-[0-9]{2}-[0-9]{2}")(value) and bool(datetime.date.fromisoformat(value))
    except ValueError:
        return False


def is_moment(value):
    """A day, and a second of it."""
    return text_like(".{10}T([01][0-9]|2[0-3]):[0-5][0-9]:[0-5][0-9]Z")(value) and is_day(value[:10])


def is_number(value):
    """The number of a ceremony or of a box."""
    return type(value) is int and 1 <= value <= LAST_NUMBER


def is_truth(value):
    """True or false."""
    return isinstance(value, bool)


def list_of(is_member, most):
    """The lists of 1 to this many such values, no two equal."""
    return lambda value: (isinstance(value, list) and 1 <= len(value) <= most and all(map(is_member, value))
                          and len(set(value)) == len(value))


def below(most):
    """The numbers of a path from 1 to this one."""
    return lambda part: re.fullmatch("[1-9][0-9]{0,9}", part) is not None and int(part) <= most


is_key = text_like("[A-Za-z0-9-]{1,40}")
is_initials = text_like("[A-Z]{2,4}")
is_code = text_like("[A-Z0-9]{4,16}")
is_name, is_remark, is_activity = line_of(120), line_of(1_000), line_of(500)
is_role, is_facility, is_place = ROLES.__contains__, FACILITIES.__contains__, PLACES.__contains__
is_store = text_like("safe1|[1-9][0-9]{0,3}")
is_way, is_text = ["in", "out"].__contains__, text_like("(?s:.*)")
PARTS = {  # what stands for a part of a path
    "who": is_initials, "place": is_place, "ceremony": below(LAST_NUMBER), "step": below(MOST_STEPS), "safe": below(2),
    "serial": is_code}
AT = {"at": is_moment}
IN = "/ceremonies/{ceremony}"
COMMANDS = {  # the name of each command here, its path, and its members in their order
    "enter": ("/people", {"who": is_initials, "name": is_name}),
    "train": ("/people/{who}/roles", {"role": is_role, "from": is_day, "until": is_day}),
    "withdraw": ("/people/{who}/withdrawals", {"role": is_role, "day": is_day}),
    "appoint": ("/custodians", {"place": is_place, "who": is_initials, "day": is_day}),
    "replace": ("/custodians/{place}/replacement", {"who": is_initials, "day": is_day}),
    "release": ("/custodians/{place}/release", {"day": is_day}),
    "plan": ("/ceremonies", {"number": is_number, "facility": is_facility, "day": is_day, "script": is_text}),
    "open": (IN + "/opening", AT),
    "sheet": (IN + "/sheet", {"way": is_way, "who": list_of(is_initials, 32), **AT}),
    "sign": (IN + "/steps/{step}/signature", AT),
    "except": (IN + "/exceptions", {"text": is_remark, "pass": is_truth, **AT}),
    "box": ("/boxes", {"facility": is_facility, "box": is_number, "place": is_place}),
    "turn": (IN + "/safes/{safe}", {"open": is_truth, "by": is_initials, **AT}),
    "add": ("/items", {"ceremony": is_number, "item": is_code, **AT}),
    "seal": (IN + "/bags/{serial}/seal", {"items": list_of(is_code, 64), **AT}),
    "put": (IN + "/bags/{serial}/put", {"to": is_store, **AT}),
    "take": (IN + "/bags/{serial}/take", AT),
    "cut": (IN + "/bags/{serial}/cut", AT),
    "close": (IN + "/closing", AT)}


# Requests

def requests_of(stream):
    """The requests of a stream, one at a time: the method, the target and the body of each."""
    number, start, end = 1, 0, len(stream.rstrip(b"\r\n"))
    form = re.compile(rb"[\r\n]*([^ \r\n]+) ([^ \r\n]+) HTTP/1\.[01]\r?\n((?:[^\r\n]+\r?\n)*)\r?\n")
    while start < end:
        head = form.match(stream, start)
        length = head and re.search(rb"(?im)^content-length:[ \t]*0*([0-9]{1,6})[ \t]*\r?$", head[3])
        start = head.end() + int(length[1] if length else 0) if head else len(stream) + 1
        if start > len(stream):
            raise NoStream(f"request {number} is no whole request")
        yield head[1].decode("latin1"), head[2].decode("latin1"), stream[head.end():start]
        number += 1


def parts_of(path, template):
    """The parts of a path that the template has in braces, or None if it is another path."""
    given, wanted = path.split("/"), template.split("/")
    found = {form[1:-1]: part for part, form in zip(given, wanted) if form.startswith("{")}
    if (len(given) != len(wanted) or any(part != form for part, form in zip(given, wanted) if not form.startswith("{"))
            or not all(PARTS[name](part) for name, part in found.items())):
        return None
    return {name: int(part) if name in ("ceremony", "step", "safe") else part for name, part in found.items()}


def depth(value):
    """How deep a JSON value is nested."""
    members = value.values() if isinstance(value, dict) else value if isinstance(value, list) else None
    return 0 if members is None else 1 + max(map(depth, members), default=0)


def read(method, target, body):
    """The command that a request asks for: its name, its path, its key, its members, and all values by name, those of
    the path first. It raises the first of the refusals 7 to 10."""
    path = target.split("?")[0]
    found = [(name, parts) for name, (form, _) in COMMANDS.items() if (parts := parts_of(path, form)) is not None]
    refuse_if(not found, 7)
    refuse_if(method != "POST", 8)
    [(name, parts)] = found
    try:
        given = json.loads(body.decode())
        json.dumps(given, ensure_ascii=False, allow_nan=False).encode()  # no half of a character, no infinite number
        refuse_if(depth(given) > 127, 9)
    except (ValueError, RecursionError):
        raise Refused(9) from None
    forms = COMMANDS[name][1]
    for member, is_value in {"key": is_key, **forms}.items():
        refuse_if(not isinstance(given, dict) or member not in given or not is_value(given[member]), 10, member=member)
    members = {member: given[member] for member in forms}
    return name, path, given["key"], members, {**parts, **members}


# Scripts and seats

def seats_of(text):
    """The seats that a text stands for, one by one, or None."""
    seats = []
    for item in text.split(";"):
        found = re.fullmatch(f"({'|'.join(ROLES)}|CO|RKSH)(?:\\*([2-7]))?|(?:CO|RKSH)/[1-7]", item)
        if not found:
            return None
        seats += [found[1] or item] * int(found[2] or 1)
    return seats if len(seats) <= 16 else None


def seat_text(seats):
    """The text of a list of seats: seats without a number that follow each other are joined, at most seven."""
    groups = []
    for seat in seats:
        if groups and groups[-1][0] == seat and "/" not in seat and groups[-1][1] < 7:
            groups[-1][1] += 1
        else:
            groups.append([seat, 1])
    return ";".join(seat if count == 1 else f"{seat}*{count}" for seat, count in groups)


def steps_of(text):
    """The steps of a script, each its activity and its seats, or 19 with the first wrong row."""
    text = text.removeprefix("\ufeff").replace("\0", "\1")  # both are wrong in any field, and csv may stop at the first
    rows = [row for row in csv.reader(io.StringIO(text, newline="")) if row]
    refuse_if(not rows or rows[0] != ["step", "activity", "seats"], 19, row=1)
    refuse_if(len(rows) == 1, 19, row=2)
    steps = []
    for number, row in enumerate(rows[1:], 1):
        refuse_if(number > MOST_STEPS or len(row) != 3 or row[0] != str(number) or not is_activity(row[1])
                  or seats_of(row[2]) is None, 19, row=number + 1)
        steps.append((row[1], seats_of(row[2])))
    return steps


def can_be_filled(eligible):
    """Whether distinct people can fill the seats of which these are the people eligible for each: each seat in turn
    takes a person who is free, or whose seat can take another."""
    seat_of = {}

    def seated(seat, tried):
        for who in eligible[seat]:
            if who not in tried:
                tried.add(who)
                if who not in seat_of or seated(seat_of[who], tried):
                    seat_of[who] = seat
                    return True
        return False

    return all(seated(seat, set()) for seat in range(len(eligible)))


def first_seating(eligible):
    """The first seating: seat by seat the first initials with which the seats after it can still be filled."""
    people = []
    for seat, fitting in enumerate(eligible):
        for who in sorted(set(fitting) - set(people)):
            if can_be_filled([set(others) - {who, *people} for others in eligible[seat + 1:]]):
                people.append(who)
                break
    return people


def is_least_shortage(eligible, seats):
    """Whether these positions, from 0, outnumber the people eligible for any of them, and no proper part of them does:
    by Hall's theorem none does if without each single one of them the others can be filled."""
    people = set().union(*(eligible[seat] for seat in seats))
    return len(people) < len(seats) and all(
        can_be_filled([eligible[other] for other in seats if other != seat]) for seat in seats)


def least_shortage(eligible):
    """A least shortage of seats that cannot be filled: what is left of all after each seat was taken away that could
    be."""
    seats = list(range(len(eligible)))
    for seat in list(seats):
        others = [other for other in seats if other != seat]
        if not can_be_filled([eligible[other] for other in others]):
            seats = others
    return seats


# The register

class Ceremony:
    """What is known of a ceremony."""

    def __init__(self, number, facility, day, steps):
        self.number, self.facility, self.day, self.steps = number, facility, day, steps
        self.opened = self.closed = self.mark = None
        self.done = []  # of each step that is done: how, when, its seats, its people
        self.exceptions = []  # of each: when, the step that was passed over or None, the text
        self.rows = []  # of its sheet: when, 1 for in and -1 for out

    def state(self):
        """Planned, open or closed."""
        return "closed" if self.closed else "open" if self.opened else "planned"

    def marked(self, at):
        """An act moved the mark."""
        self.mark = max(self.mark or at, at)


class Register:
    """The accepted commands, by what they are about. Each list is in the order in which they were accepted."""

    def __init__(self):
        self.keys = {}  # key -> path, members, reply
        self.names = {}  # initials -> name
        self.roles = {}  # initials -> ("train", role, from, until) or ("withdraw", role, day)
        self.places = {place: [] for place in PLACES}  # day, and who from then on, or None
        self.ceremonies = {}
        self.sheet = {}  # initials -> when, in or out, ceremony
        self.boxes = {}  # facility, number -> place
        self.is_open = {(facility, safe): False for facility in FACILITIES for safe in (1, 2)}
        self.bags = {}  # serial -> its spot
        self.items = {}  # code -> ("loose", facility) or ("bag", serial)
        self.asked = []  # of the seats that were asked for last, the people eligible for each

    def answer(self, method, target, body):
        """The answer to a command: the status and the text of its body."""
        try:
            return 200, compact(self.take(*read(method, target, body)))
        except Refused as refusal:
            return refusal.answer()

    def take(self, name, path, key, members, values):
        """The reply to a command, or its refusal; an accepted one changes the register."""
        if key in self.keys:
            *same, reply = self.keys[key]
            refuse_if(same != [path, members], 11)
            return reply
        python = {f"{word}_" if word in ("from", "pass", "open") else word: value for word, value in values.items()}
        more = getattr(self, f"do_{name}")(**python)
        reply = {"accepted": len(self.keys) + 1, **(more or {})}
        self.keys[key] = (path, members, reply)
        return reply

    # What it knows

    def is_trained(self, who, role, day):
        """Whether a training covers the day, and no withdrawal entered after it has that day or an earlier one."""
        counts = False
        for act, its_role, *days in self.roles.get(who, []):
            if its_role == role and act == "train" and days[0] <= day <= days[1]:
                counts = True
            elif its_role == role and act == "withdraw" and days[0] <= day:
                counts = False
        return counts

    def holder(self, place, day):
        """Whom the place's last command up to the day puts there."""
        return next((who for since, who in reversed(self.places[place]) if since <= day), None)

    def holders_from(self, place, day):
        """Who holds a place on the day or later: a holder changes only on the day of a command."""
        days = [day, *(since for since, _ in self.places[place] if since > day)]
        return {self.holder(place, one) for one in days} - {None}

    def was_ever_placed(self, who):
        """Whether somebody was ever put in a place."""
        return any(who == one for commands in self.places.values() for _, one in commands)

    def settled_day(self):
        """The day of the latest mark, or None."""
        return max((ceremony.mark[:10] for ceremony in self.ceremonies.values() if ceremony.mark), default=None)

    def present(self, number, at):
        """Who is in the room of a ceremony at a moment, by initials: whose last row up to then is an `in` for it."""
        rows = ((who, next((row for row in reversed(rows) if row[0] <= at), None)) for who, rows in self.sheet.items())
        return sorted(who for who, row in rows if row and row[1:] == ("in", number))

    def fits(self, ceremony, seat, who, day):
        """Whether somebody fits a seat on a day."""
        kind, _, place = seat.partition("/")
        if kind in ROLES:
            return self.is_trained(who, kind, day)
        front = f"CO-{ceremony.facility}-" if kind == "CO" else "RKSH-"
        return any(self.holder(front + n, day) == who for n in place or "1234567")

    def eligible(self, ceremony, seats, at):
        """The people eligible for each seat."""
        room = self.present(ceremony.number, at)
        return [[who for who in room if self.fits(ceremony, seat, who, at[:10])] for seat in seats]

    # Conditions that several commands have

    def known_person(self, who):
        """12, if nobody has these initials."""
        refuse_if(who not in self.names, 12, thing=f"person {who}")

    def known_ceremony(self, number):
        """The ceremony, or 12."""
        refuse_if(number not in self.ceremonies, 12, thing=f"ceremony {number}")
        return self.ceremonies[number]

    def is_act(self, ceremony, at):
        """20 or 22, if nothing can be done in the ceremony at the moment."""
        refuse_if(ceremony.state() != "open", 20)
        refuse_if(at < ceremony.mark, 22, mark=ceremony.mark)

    def is_unsettled(self, day):
        """18, if the day is settled."""
        settled = self.settled_day()
        refuse_if(settled is not None and day <= settled, 18, day=settled)

    def has_administrator(self, ceremony, at):
        """30, if nobody in the room is trained as CA."""
        room = self.present(ceremony.number, at)
        refuse_if(not any(self.is_trained(who, "CA", at[:10]) for who in room), 30, who="CA")

    def has_holder(self, ceremony, spot, at):
        """30, if the spot is a box and the holder of its place is not in the room."""
        if spot.startswith("box "):
            place = self.boxes[ceremony.facility, int(spot.split(" ")[1])]
            refuse_if(self.holder(place, at[:10]) not in self.present(ceremony.number, at), 30, who=place)

    def seating(self, ceremony, seats, at):
        """The first seating, or 32 with a least shortage."""
        eligible = self.asked = self.eligible(ceremony, seats, at)
        if not can_be_filled(eligible):
            raise Refused(32, seats=[seat + 1 for seat in least_shortage(eligible)])
        return first_seating(eligible)

    # The commands, each by its name in COMMANDS: its conditions in the order of their numbers, then what it changes

    # People, places and boxes

    def do_enter(self, who, name):
        refuse_if(who in self.names, 13)
        self.names[who] = name

    def do_train(self, who, role, from_, until):
        self.known_person(who)
        training = ("train", role, from_, until)
        refuse_if(training in self.roles.get(who, []), 13)
        refuse_if(until < from_, 14)
        refuse_if(self.was_ever_placed(who), 15)
        self.roles.setdefault(who, []).append(training)

    def do_withdraw(self, who, role, day):
        self.known_person(who)
        days = [day, *(command[2] for command in self.roles.get(who, []) if command[0] == "train" and command[2] > day)]
        refuse_if(not any(self.is_trained(who, role, one) for one in days), 17)
        self.is_unsettled(day)
        self.roles[who].append(("withdraw", role, day))

    def can_be_placed(self, who, place, day):
        """15 or 16, if somebody cannot be put in a place."""
        refuse_if(any(command[0] == "train" for command in self.roles.get(who, [])), 15)
        refuse_if(place and self.holders_from(place, day), 16)
        refuse_if(any(who in self.holders_from(one, day) for one in PLACES), 16)

    def do_appoint(self, place, who, day):
        self.known_person(who)
        self.can_be_placed(who, place, day)
        self.is_unsettled(day)
        self.places[place].append((day, who))

    def has_room_for(self, place, day):
        """14, if the first day of the place's holder is not before the day; and whether there is a holder."""
        since, who = self.places[place][-1] if self.places[place] else (None, None)
        refuse_if(who is not None and since >= day, 14)
        return who is not None

    def do_replace(self, place, who, day):
        self.known_person(who)
        is_held = self.has_room_for(place, day)
        self.can_be_placed(who, None, day)
        refuse_if(not is_held, 17)
        self.is_unsettled(day)
        self.places[place].append((day, who))

    def do_release(self, place, day):
        refuse_if(not self.has_room_for(place, day), 17)
        self.is_unsettled(day)
        self.places[place].append((day, None))

    def do_box(self, facility, box, place):
        refuse_if((facility, box) in self.boxes or place in self.boxes.values(), 13)
        refuse_if(not place.startswith(f"CO-{facility}-"), 14)
        self.boxes[facility, box] = place

    # Ceremonies

    def do_plan(self, number, facility, day, script):
        refuse_if(number in self.ceremonies, 13)
        self.ceremonies[number] = Ceremony(number, facility, day, steps_of(script))

    def do_open(self, ceremony, at):
        ceremony = self.known_ceremony(ceremony)
        refuse_if(at[:10] < ceremony.day, 14)
        refuse_if(ceremony.state() != "planned", 20)
        refuse_if(any(other.state() == "open" and other.facility == ceremony.facility
                      for other in self.ceremonies.values()), 21)
        ceremony.opened = at
        ceremony.marked(at)

    def do_sheet(self, ceremony, way, who, at):
        ceremony = self.known_ceremony(ceremony)
        for one in who:
            self.known_person(one)
        refuse_if(ceremony.state() != "open", 20)
        refuse_if(at <= ceremony.mark, 22, mark=ceremony.mark)
        for one in who:
            last, last_way, room = self.sheet.get(one, [("", "out", None)])[-1]
            turn = last_way == "out" if way == "in" else (last_way, room) == ("in", ceremony.number)
            refuse_if(last >= at or not turn, 24, who=one)
        rows = ceremony.rows + [(at, 1 if way == "in" else -1)] * len(who)
        inside, crowds = 0, {}
        for moment, step in sorted(rows):
            inside += step
            crowds[moment] = inside  # the last of a moment counts
        refuse_if(max(crowds.values()) > MOST_IN_A_ROOM, 25)
        lone = [moment for moment, count in crowds.items() if count == 1]
        refuse_if(lone, 26, moment=min(lone, default=None))
        refuse_if(way == "in" and sum(step == 1 for _, step in rows) > MOST_ROWS_IN, 27)
        ceremony.rows = rows
        for one in who:
            self.sheet.setdefault(one, []).append((at, way, ceremony.number))

    def do_sign(self, ceremony, step, at):
        ceremony = self.known_ceremony(ceremony)
        refuse_if(step > len(ceremony.steps), 12, thing=f"step {step}")
        self.is_act(ceremony, at)
        refuse_if(step != len(ceremony.done) + 1, 23, next=len(ceremony.done) + 1)
        return self.pass_on(ceremony, "signed", ceremony.steps[step - 1][1], at)

    def pass_on(self, ceremony, how, seats, at):
        """The next step is signed or passed over: the members that the answer has."""
        people = self.seating(ceremony, seats, at)
        ceremony.done.append((how, at, seats, people))
        ceremony.marked(at)
        return {"step": len(ceremony.done), "seating": people}

    def do_except(self, ceremony, text, pass_, at):
        ceremony = self.known_ceremony(ceremony)
        self.is_act(ceremony, at)
        following = len(ceremony.done) + 1
        refuse_if(pass_ and following > len(ceremony.steps), 23, next=following)
        refuse_if(len(ceremony.exceptions) >= MOST_EXCEPTIONS, 27)
        more = self.pass_on(ceremony, "passed", ["CA", "IW"], at) if pass_ else {}
        ceremony.exceptions.append((at, following if pass_ else None, text))
        ceremony.marked(at)
        return {"exception": len(ceremony.exceptions), **more}

    def do_close(self, ceremony, at):
        ceremony = self.known_ceremony(ceremony)
        self.is_act(ceremony, at)
        facility = ceremony.facility
        refuse_if(len(ceremony.done) < len(ceremony.steps), 31, part="steps")
        refuse_if(self.present(ceremony.number, at) or any(row[0] > at for row in ceremony.rows), 31, part="room")
        refuse_if(self.is_open[facility, 1] or self.is_open[facility, 2], 31, part="safes")
        refuse_if(f"table {facility}" in self.bags.values(), 31, part="table")
        ceremony.closed = at

    # Safes, items and bags

    def do_turn(self, ceremony, safe, open_, by, at):
        ceremony = self.known_ceremony(ceremony)
        self.known_person(by)
        self.is_act(ceremony, at)
        refuse_if(self.is_open[ceremony.facility, safe] == open_, 28)
        refuse_if(by not in self.present(ceremony.number, at), 30, who=by)
        refuse_if(not self.is_trained(by, f"SSC{safe}", at[:10]), 30, who=by)
        self.is_open[ceremony.facility, safe] = open_
        ceremony.marked(at)

    def do_add(self, ceremony, item, at):
        ceremony = self.known_ceremony(ceremony)
        refuse_if(item in self.items, 13)
        self.is_act(ceremony, at)
        self.has_administrator(ceremony, at)
        self.items[item] = ("loose", ceremony.facility)
        ceremony.marked(at)

    def do_seal(self, ceremony, serial, items, at):
        ceremony = self.known_ceremony(ceremony)
        for item in items:
            refuse_if(item not in self.items, 12, thing=f"item {item}")
        refuse_if(serial in self.bags, 13)
        self.is_act(ceremony, at)
        refuse_if(any(self.items[item] != ("loose", ceremony.facility) for item in items), 29)
        self.has_administrator(ceremony, at)
        self.bags[serial] = f"table {ceremony.facility}"
        self.items.update({item: ("bag", serial) for item in items})
        ceremony.marked(at)

    def items_in(self, serial):
        """The items in a bag, by code."""
        return sorted(code for code, rest in self.items.items() if rest == ("bag", serial))

    def known_bag(self, number, serial):
        """The ceremony and the spot of the bag, or 12."""
        ceremony = self.known_ceremony(number)
        refuse_if(serial not in self.bags, 12, thing=f"bag {serial}")
        return ceremony, self.bags[serial]

    def do_put(self, ceremony, serial, to, at):
        ceremony, spot = self.known_bag(ceremony, serial)
        facility = ceremony.facility
        refuse_if(to != "safe1" and (facility, int(to)) not in self.boxes, 12, thing=f"box {to}")
        self.is_act(ceremony, at)
        refuse_if(not self.is_open[facility, 1 if to == "safe1" else 2], 28)
        refuse_if(spot != f"table {facility}", 29)
        self.has_administrator(ceremony, at)
        goal = f"safe 1 {facility}" if to == "safe1" else f"box {to} {facility}"
        self.has_holder(ceremony, goal, at)
        self.bags[serial] = goal
        ceremony.marked(at)

    def do_take(self, ceremony, serial, at):
        ceremony, spot = self.known_bag(ceremony, serial)
        facility = ceremony.facility
        self.is_act(ceremony, at)
        is_in = re.fullmatch(f"(safe 1|box [0-9]+) {facility}", spot)
        refuse_if(is_in and not self.is_open[facility, 1 if is_in[1] == "safe 1" else 2], 28)
        refuse_if(not is_in, 29)
        self.has_administrator(ceremony, at)
        self.has_holder(ceremony, spot, at)
        self.bags[serial] = f"table {facility}"
        ceremony.marked(at)

    def do_cut(self, ceremony, serial, at):
        ceremony, spot = self.known_bag(ceremony, serial)
        self.is_act(ceremony, at)
        refuse_if(spot != f"table {ceremony.facility}", 29)
        self.has_administrator(ceremony, at)
        self.items.update({code: ("loose", ceremony.facility) for code in self.items_in(serial)})
        self.bags[serial] = "spent"
        ceremony.marked(at)

    # Reports

    def script(self, ceremony):
        """The annotated script."""
        ceremony = self.known_ceremony(ceremony)
        lines = [f"Ceremony {ceremony.number} {ceremony.facility} {ceremony.day} {ceremony.state()}"]
        lines += [f"Opened {ceremony.opened}"] if ceremony.opened else []
        for step, (activity, seats) in enumerate(ceremony.steps, 1):
            if step <= len(ceremony.done):
                how, at, filled, people = ceremony.done[step - 1]
                lines += [f"{step} {how} {at} {activity}", *(f"  {seat} {who}" for seat, who in zip(filled, people))]
            else:
                lines += [f"{step} open {activity}", f"  seats {seat_text(seats)}"]
        for number, (at, step, text) in enumerate(ceremony.exceptions, 1):
            lines.append(f"Exception {number} {at} {f'step {step} ' if step else ''}{text}")
        lines += [f"Closed {ceremony.closed}"] if ceremony.closed else []
        return "".join(f"{line}\n" for line in lines)

    def attendance(self, ceremony):
        """The stays in a room, by beginning, then initials. A field with a comma or a quote is quoted."""
        self.known_ceremony(ceremony)
        stays = []
        for who, rows in self.sheet.items():
            for place, (at, way, room) in enumerate(rows):
                if (way, room) == ("in", ceremony):
                    stays.append((at, who, rows[place + 1][0] if place + 1 < len(rows) else ""))
        lines = ["who,name,in,out\n"]
        for since, who, until in sorted(stays):
            name = self.names[who]
            quoted = '"' + name.replace('"', '""') + '"' if re.search('[,"]', name) else name
            lines.append(f"{who},{quoted},{since},{until}\n")
        return "".join(lines)

    def custody(self):
        """The safes, the bags with their items, and the loose items."""
        lines = [f"safe {safe} {facility} {'open' if is_open else 'shut'}"
                 for (facility, safe), is_open in self.is_open.items()]
        for serial in sorted(self.bags):
            lines += [f"{serial} {self.bags[serial]}", *(f"  {code}" for code in self.items_in(serial))]
        lines += [f"loose {rest[1]} {code}" for code, rest in sorted(self.items.items()) if rest[0] == "loose"]
        return "".join(f"{line}\n" for line in lines)


# Answers

def answers_of(text, methods):
    """The answers of a text, those to requests with these methods: the status and the body of each. A text that does
    not begin as HTTP has a reply a line, of accepted commands."""
    if not text.startswith(b"HTTP/1.1 "):
        return [(200, line) for line in text.splitlines()]
    found, start = [], 0
    form = re.compile(rb"(?:HTTP/1\.1 100 Continue\r\n\r\n)?HTTP/1\.1 ([0-9]{3}) .*\r\n((?:[^\r\n]+\r\n)*)\r\n")
    for method in methods:
        head = form.match(text, start)
        if not head:
            break
        size = re.search(rb"content-length: ([0-9]+)", head[2])
        start = head.end() + (int(size[1]) if size and method != "HEAD" else 0)
        found.append((int(head[1]), text[head.end():start]))
    return found + [(0, text[start:])] * (start < len(text))


def is_right(register, wanted, got):
    """Whether an answer to a command is right: byte for byte, except that it may name any least shortage."""
    if (wanted[0], wanted[1].encode()) == got:
        return True
    if not wanted[1].startswith('{"number":32,'):
        return False
    named = re.fullmatch(rb'\{"number":32,"refusal":"short","seats":\[([1-9][0-9]?(?:,[1-9][0-9]?)*)\]\}', got[1])
    seats = [int(seat) - 1 for seat in named[1].split(b",")] if named and got[0] == 409 else []
    return (seats != [] and seats == sorted(set(seats)) and seats[-1] < len(register.asked)
            and is_least_shortage(register.asked, seats))


def seating_word(register, wanted, found):
    """Of a reply that differs in its people alone: whether they fill the seats."""
    try:
        told, people = json.loads(wanted), json.loads(found)["seating"]
    except (ValueError, KeyError, TypeError):
        return ""
    if not list_of(is_initials, 16)(people) or compact({**told, "seating": people}) != found or "seating" not in told:
        return ""
    fills = len(people) == len(register.asked) and all(map(list.__contains__, register.asked, people))
    return "; a seating, but not the first" if fills else "; no seating"


def play(register, stream, answers=None):
    """Gives a register the commands of a stream. Returns each with its answer, and a line for each answer given that is
    not right."""
    requests, played, wrong = list(requests_of(stream)), [], []
    given = None if answers is None else answers_of(answers, [method for method, *_ in requests])
    for number, request in enumerate(requests, 1):
        if request[0] in ("GET", "HEAD"):  # a question
            continue
        what, wanted = f"{number} {request[0]} {request[1]}", register.answer(*request)
        played.append((what, wanted))
        got = wanted if given is None else given[number - 1] if number <= len(given) else (0, b"nothing")
        if given is not None and not is_right(register, wanted, got):
            found = got[1].decode(errors="replace")
            wrong.append(f"{what}: expected {wanted[0]} {wanted[1]}; found {got[0]} {found}"
                         + seating_word(register, wanted[1], found))
    if given is not None and len(given) > len(requests):
        wrong.append(f"{len(requests)} requests have {len(given)} answers")
    return played, wrong


def words_of():
    """The arguments."""
    parser = argparse.ArgumentParser(description="Decides each command of an export anew, by the documents alone.")
    parser.add_argument("export", type=pathlib.Path, help="a stream of requests, such as `kcr export` prints")
    parser.add_argument("--answers", type=pathlib.Path, help="the answers of kcr, or a register's replies, one a line")
    parser.add_argument("--script", type=int, metavar="CEREMONY", help="print this annotated script")
    parser.add_argument("--attendance", type=int, metavar="CEREMONY", help="print this attendance")
    parser.add_argument("--custody", action="store_true", help="print where all bags and items are")
    return parser.parse_args()


def main():
    words, register = words_of(), Register()
    try:
        played, wrong = play(register, words.export.read_bytes(), words.answers and words.answers.read_bytes())
        report = (register.script(words.script) if words.script is not None
                  else register.attendance(words.attendance) if words.attendance is not None
                  else register.custody() if words.custody else None)
    except (NoStream, OSError) as fault:
        print(f"check: {fault}", file=sys.stderr)
        sys.exit(2)
    except Refused as refusal:
        print(f"check: {refusal.answer()[1]}", file=sys.stderr)
        sys.exit(1)
    refused = sum(status != 200 for _, (status, _) in played)
    if report is None:
        lines = list(wrong) if words.answers else [f"{what} {status} {text}" for what, (status, text) in played]
        lines.append(f"check: {len(register.keys)} accepted, {refused} refused"
                     + (f", {len(wrong)} wrong" if words.answers else ""))
        report = "".join(f"{line}\n" for line in lines)
    sys.stdout.buffer.write(report.encode())
    sys.exit(1 if wrong or refused and not words.answers else 0)


if __name__ == "__main__":
    main()
