"""Streams of commands that chance makes by a seed, for `rules.py`: of a register's whole life in small, with three
ceremonies, some thirteen people, a few places, boxes, items and bags. About half of the commands are accepted.

Each command is chosen by what the commands before it made of the register, as `tools/check.py` reads the rules: most of
the time something that may be accepted, sometimes anything.
"""
import csv
import datetime
import io
import json
import random

import check  # of tools, where kcr looks for modules

COMMANDS = 80  # after those that prepare the register
PEOPLE = "AA BB CC DD EE FF GG HH II JJ KK LL CA IW ZZ".split()  # the last two are never entered at first
NAMES = ["Ann Abel", "Bob Berg", "Cole, Cy", 'Lea "Lou" Rossi', "Żółw Ünïcode", "O'Brien", "key 🔑"]
DAYS = ["2024-12-31", "2025-01-01", "2025-02-12", "2025-02-13", "2025-02-14", "2025-03-01", "2025-12-31"]
PLACES = ["CO-EAST-1", "CO-EAST-2", "CO-EAST-7", "CO-WEST-1", "RKSH-1", "RKSH-2"]
SEATS = ["CA;IW", "IW", "CA", "CO", "IW;CA;CO", "CA*2;IW", "RKSH", "CO;CO/1", "IW*2;CA", "SA;IW", "CO/1;CO",
         "SSC1;SSC2", "CA;CA;CA", "CA;IW;CO*2;CO/1", "RKSH/1;RKSH", "CO;CO;CO;CO;CO;CO;CO;CO", "CO/1;SW*2", "CO*8",
         "CA;"]
ACTIVITIES = ["Check bags", "Read the script, aloud", 'Say "yes"', ""]
ITEMS = [f"HSM{n}" for n in range(1, 9)] + ["EAST", "WEST"]  # the last two are codes as well
BAGS = [f"BB5118430{n}" for n in range(8)] + ["EAST"]
MOVES = [0, 1, 1, 5, 5, 60, 60, 60, 300, 300, -1, -300]  # seconds from the last moment of a ceremony
WEIGHTS = {  # how often each command is chosen
    "enter": 1, "train": 4, "withdraw": 3, "appoint": 3, "replace": 4, "release": 2, "box": 2, "plan": 2, "open": 2,
    "sheet": 9, "sign": 12, "exception": 4, "turn": 7, "add": 4, "seal": 6, "put": 9, "take": 7, "cut": 3, "close": 2,
    "again": 4, "finish": 1}


def later(moment, seconds):
    """The moment `seconds` later."""
    found = datetime.datetime.strptime(moment, "%Y-%m-%dT%H:%M:%SZ") + datetime.timedelta(seconds=seconds)
    return found.strftime("%Y-%m-%dT%H:%M:%SZ")


class Chance:
    """A stream of commands, and the register that they make."""

    def __init__(self, seed):
        self.chance, self.register, self.requests = random.Random(seed), check.Register(), []
        self.prepare()
        kinds, weights = list(WEIGHTS), list(WEIGHTS.values())
        for number in range(COMMANDS):
            is_open = [one for one in self.register.ceremonies.values() if one.state() == "open"]
            if not is_open and self.chance.random() < 0.3:
                self.begin(self.chance.choice([61, 62, 63, 64, 65]), later("2025-02-13T21:00:00Z", number * 60))
            told = getattr(self, self.chance.choices(kinds, weights)[0])()
            if told:
                self.send(*told)

    def send(self, path, members, key=None):
        """Adds a command to the stream."""
        body = json.dumps({"key": key or f"k{len(self.requests)}", **members}, ensure_ascii=False).encode()
        self.requests.append(("POST", path, body))
        self.register.answer("POST", path, body)

    def prepare(self):
        """People, trainings, places, boxes, and a ceremony whose room has people."""
        for who in PEOPLE[:13]:
            self.send("/people", {"who": who, "name": self.chance.choice(NAMES)})
        for place, who in zip(self.chance.sample(PLACES, 5), PEOPLE[6:11]):
            self.send("/custodians", {"place": place, "who": who, "day": self.chance.choice(DAYS[:3])})
        for who, roles in zip(PEOPLE, ("CA IW", "CA IW", "IW SA", "SSC1 CA", "SSC2 IW", "SW CA")):
            for role in roles.split():
                days = {"from": DAYS[1], "until": self.chance.choice(DAYS[3:])}
                self.send(f"/people/{who}/roles", {"role": role, **days})
        for number, place in enumerate(self.chance.sample(PLACES[:4], 3), 1):
            self.send("/boxes", {"facility": place[3:7], "box": number, "place": place})
        for number, facility in ((61, "EAST"), (62, "WEST"), (63, "EAST")):
            self.send(*self.plan(number, facility))
        self.begin(61, "2025-02-13T20:00:00Z")

    def begin(self, number, at):
        """Opens a ceremony, and lets most people come in who are in no room."""
        self.send(f"/ceremonies/{number}/opening", {"at": at})
        out = [who for who in PEOPLE[:12] if self.register.sheet.get(who, [("", "out")])[-1][1] == "out"]
        who = self.chance.sample(out, max(2, len(out) - self.chance.randrange(4))) if len(out) > 2 else ["ZZ"]
        self.send(f"/ceremonies/{number}/sheet", {"way": "in", "who": who, "at": later(at, 300)})

    # Values

    def often(self, good, any_one):
        """One of the first list most of the time, else, or if that is empty, one of the second."""
        return self.chance.choice(good if good and self.chance.random() < 0.85 else any_one)

    def who(self):
        """Somebody, mostly one who is entered."""
        return self.often(list(self.register.names), PEOPLE)

    def free(self):
        """Somebody, mostly one who has neither a role nor a place."""
        placed = {who for commands in self.register.places.values() for _, who in commands}
        return self.often([who for who in self.register.names if who not in {*self.register.roles, *placed}], PEOPLE)

    def ceremony(self):
        """The number of a ceremony, mostly of an open one."""
        is_open = [number for number, ceremony in self.register.ceremonies.items() if ceremony.state() == "open"]
        return self.often(is_open, [61, 62, 63, 64])

    def moment(self, number):
        """A moment near the last one of a ceremony."""
        ceremony = self.register.ceremonies.get(number)
        rows = [row[0] for row in ceremony.rows] if ceremony and self.chance.random() < 0.5 else []
        start = max([*rows, ceremony.mark if ceremony and ceremony.mark else "2025-02-13T20:00:00Z"])
        return later(start, 86_400 if self.chance.random() < 0.01 else self.chance.choice(MOVES))

    def act(self, what, **members):
        """A command of a ceremony."""
        number = self.ceremony()
        return f"/ceremonies/{number}/{what}", {**members, "at": self.moment(number)}

    # Commands, each by its name in WEIGHTS: a path and members

    def enter(self):
        return "/people", {"who": self.chance.choice(PEOPLE), "name": self.chance.choice(NAMES)}

    def train(self):
        days = self.chance.sample(DAYS, 2)
        since, until = sorted(days) if self.chance.random() < 0.9 else days
        who = self.often([*self.register.roles, self.free()], PEOPLE)
        return f"/people/{who}/roles", {"role": self.chance.choice(check.ROLES), "from": since, "until": until}

    def withdraw(self):
        who = self.often(list(self.register.roles), PEOPLE)
        roles = [command[1] for command in self.register.roles.get(who, [])]
        day = self.chance.choice(DAYS[2:])
        return f"/people/{who}/withdrawals", {"role": self.often(roles, check.ROLES), "day": day}

    def appoint(self):
        vacant = [place for place in PLACES if not self.register.places[place]]
        return "/custodians", {"place": self.often(vacant, PLACES), "who": self.free(), "day": self.chance.choice(DAYS)}

    def place(self):
        """A place, mostly one that had a holder."""
        return self.often([place for place, commands in self.register.places.items() if commands], PLACES)

    def replace(self):
        return f"/custodians/{self.place()}/replacement", {"who": self.free(), "day": self.chance.choice(DAYS[1:])}

    def release(self):
        return f"/custodians/{self.place()}/release", {"day": self.chance.choice(DAYS[1:])}

    def box(self):
        place = self.chance.choice(PLACES)
        facility = self.often([place[3:7]] if place.startswith("CO") else [], check.FACILITIES)
        return "/boxes", {"facility": facility, "box": self.chance.randrange(1, 4), "place": place}

    def plan(self, number=None, facility=None):
        activities, seats = (ACTIVITIES[:3], SEATS[:-2]) if number else (ACTIVITIES, SEATS)
        script = io.StringIO()
        rows = csv.writer(script, lineterminator=self.chance.choice(["\n", "\r\n", "\n\n"]))
        rows.writerow(["step", "activity", "seats"])
        for step in range(1, self.chance.randrange(3 if number else 1, 7)):
            rows.writerow([step, self.chance.choice(activities), self.chance.choice(seats)])
        return "/ceremonies", {"number": number or self.chance.randrange(61, 67), "script": script.getvalue(),
                               "facility": facility or self.chance.choice(check.FACILITIES),
                               "day": self.chance.choice(DAYS[2:4])}

    def open(self):
        planned = [number for number, ceremony in self.register.ceremonies.items() if ceremony.state() == "planned"]
        number = self.often(planned, [61, 62, 63, 64])
        at = later("2025-02-13T20:00:00Z", self.chance.choice(MOVES) * 60)
        if self.chance.random() < 0.5:
            return f"/ceremonies/{number}/opening", {"at": at}
        self.begin(number, at)

    def sheet(self):
        number, way = self.ceremony(), self.chance.choice(["in", "in", "out"])
        last = {who: rows[-1][1:] for who, rows in self.register.sheet.items()}
        inside = [who for who in PEOPLE[:12] if last.get(who, ("out", 0)) == ("in", number)]
        pool = inside if way == "out" else [who for who in PEOPLE[:12] if last.get(who, ("out", 0))[0] == "out"]
        pool = pool if self.chance.random() < 0.85 else PEOPLE
        who = self.chance.sample(pool, min(len(pool), self.chance.randrange(1, 4))) or [self.who()]
        return f"/ceremonies/{number}/sheet", {"way": way, "who": who, "at": self.moment(number)}

    def sign(self):
        number = self.ceremony()
        ceremony = self.register.ceremonies.get(number)
        if ceremony and len(ceremony.done) == len(ceremony.steps) and self.chance.random() < 0.8:
            return self.turn()
        step = self.often([len(ceremony.done) + 1] if ceremony else [], [1, 2, 3, 5])
        return f"/ceremonies/{number}/steps/{step}/signature", {"at": self.moment(number)}

    def exception(self):
        return self.act("exceptions", text=self.chance.choice(NAMES), **{"pass": self.chance.random() < 0.6})

    def turn(self):
        safe = self.chance.choice([1, 2])
        roles = self.register.roles.items()
        trained = [who for who, commands in roles if any(f"SSC{safe}" == one[1] for one in commands)]
        return self.act(f"safes/{safe}", open=self.chance.random() < 0.8, by=self.often(trained, PEOPLE))

    def add(self):
        number = self.ceremony()
        return "/items", {"ceremony": number, "item": self.chance.choice(ITEMS), "at": self.moment(number)}

    def bag(self, *spots):
        """A bag, mostly one whose spot begins so."""
        fitting = [serial for serial, spot in self.register.bags.items() if spot.startswith(spots)]
        return self.often(fitting or list(self.register.bags), BAGS)

    def has_bag(self, *spots):
        """Whether a bag has such a spot; now and then it does not matter."""
        return self.chance.random() < 0.1 or any(spot.startswith(spots) for spot in self.register.bags.values())

    def seal(self):
        loose = [code for code, (kind, _) in self.register.items.items() if kind == "loose"]
        if len(loose) < 2 and self.chance.random() < 0.9:
            return self.add()
        pool = loose if loose and self.chance.random() < 0.85 else ITEMS
        fresh = [serial for serial in BAGS if serial not in self.register.bags]
        return self.act(f"bags/{self.often(fresh, BAGS)}/seal", items=self.chance.sample(pool, min(len(pool), 2)))

    def put(self):
        if not self.has_bag("table"):
            return self.seal()
        boxes = [str(number) for _, number in self.register.boxes]
        return self.act(f"bags/{self.bag('table')}/put", to=self.often(["safe1", *boxes], ["safe1", "1", "9"]))

    def take(self):
        return self.act(f"bags/{self.bag('safe', 'box')}/take") if self.has_bag("safe", "box") else self.put()

    def cut(self):
        return self.act(f"bags/{self.bag('table')}/cut") if self.has_bag("table") else self.seal()

    def close(self):
        return self.act("closing")

    def again(self):
        """A command once more with its key: as it was, or with one member changed."""
        _, path, body = self.chance.choice(self.requests)
        members = json.loads(body)
        key = members.pop("key")
        if self.chance.random() < 0.4:
            changed = self.chance.choice(list(members))
            members[changed] = members[changed][::-1] if isinstance(members[changed], list) else members[changed]
            path = path.replace("61", "62")
        self.send(path, members, key)

    def finish(self):
        """What closes a ceremony: steps are passed over, bags put away, safes shut, and all go out."""
        number = self.ceremony()
        ceremony = self.register.ceremonies.get(number)
        if not ceremony or ceremony.state() != "open":
            return
        at = later(max([ceremony.mark, *(row[0] for row in ceremony.rows)]), 60)
        path, people = f"/ceremonies/{number}/", self.register.present(number, at)
        for _ in range(len(ceremony.done), len(ceremony.steps)):
            self.send(path + "exceptions", {"text": "At the end", "pass": True, "at": at})
        keepers = {safe: next((who for who in people if self.register.is_trained(who, f"SSC{safe}", at[:10])), "AA")
                   for safe in (1, 2)}
        on_table = [serial for serial, spot in self.register.bags.items() if spot == f"table {ceremony.facility}"]
        if on_table and not self.register.is_open[ceremony.facility, 1]:
            self.send(path + "safes/1", {"open": True, "by": keepers[1], "at": at})
        for serial in on_table:
            self.send(f"{path}bags/{serial}/put", {"to": "safe1", "at": at})
        for safe in (1, 2):
            if self.register.is_open[ceremony.facility, safe]:
                self.send(f"{path}safes/{safe}", {"open": False, "by": keepers[safe], "at": at})
        if people:
            self.send(path + "sheet", {"way": "out", "who": people, "at": later(at, 1)})
        self.send(path + "closing", {"at": later(at, self.chance.choice([0, 1, 1, 1]))})
