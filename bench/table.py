#!/usr/bin/env python3
"""What requests of each kind cost the program, in one table.

    bench/table.py PROGRAM [--requests N] [--instructions] [KIND ..]

Each kind is a stream: what the register has before, and N requests that are measured (2000 where nothing is said; of
`sheet` a fifth of them, of `crowded` a tenth, of `reports` a twentieth, and of `ceremonies` one ceremony for 200). It is
played without and with the N, so that what came before is taken away. Printed are, in memory and over a file, the
microseconds of the processor for one request, and how many times as much twice as many take; over a file also the
microseconds by the clock; and the most memory that the program held in memory (kilobytes). Times are the least of three
runs. With `--instructions`, `valgrind --tool=callgrind` counts what one request takes in memory, the same in each run.

Each answer has to be the one that the kind expects: 200, or a refusal for `refused`. Files lie in the folder that TMPDIR
names, and for figures of a disk that must be one on a disk.
"""
import argparse
import datetime
import json
import os
import pathlib
import re
import subprocess
import sys
import tempfile
import time

TIMES = 3
LETTERS = "ABCDEFGHIJKLMNOPQRSTUVWXYZ"
STAFF = {"AA": ["CA"], "BB": ["IW"], "CC": ["SA", "CA"], "DD": ["SSC2"], "FF": ["SW"]}
OFFICERS = ["EA", "EB", "EC", "ED", "EE", "EF", "EG"]
EVERYBODY = [*STAFF, *OFFICERS]
SEATS = ["CA;IW", "CA", "IW;SA", "CO*3", "CA;IW;CO/1"]
SPAN = {"from": "2000-01-01", "until": "2099-12-31"}


class Client:
    """Makes requests, each command under a key of its own."""

    def __init__(self):
        self.requests = []

    def post(self, path, **members):
        self.post_under(f"k{len(self.requests):08}", path, **members)

    def post_under(self, key, path, **members):
        body = json.dumps({"key": key, **members}, separators=(",", ":"))
        self.requests.append(f"POST {path} HTTP/1.1\r\nHost: l\r\nContent-Length: {len(body)}\r\n\r\n{body}".encode())

    def get(self, path):
        self.requests.append(f"GET {path} HTTP/1.1\r\nHost: l\r\n\r\n".encode())

    def take(self):
        """What was made since the last time, as one stream, and how many requests it has."""
        taken, self.requests = self.requests[getattr(self, "told", 0):], self.requests
        self.told = len(self.requests)
        return b"".join(taken), len(taken)


def code(number, letters=4):
    """As many letters as are asked for, which tell the number."""
    return "".join(LETTERS[number // 26**place % 26] for place in reversed(range(letters)))


def day_of(number):
    """The number-th day from 2010 on."""
    return (datetime.date(2010, 1, 1) + datetime.timedelta(days=number)).isoformat()


def moment(number, second):
    """So many seconds after 10 o'clock of the number-th day."""
    return f"{day_of(number)}T{10 + second // 3600:02}:{second // 60 % 60:02}:{second % 60:02}Z"


def enter_staff(client):
    """Twelve people, trained and appointed, and a box."""
    for who in EVERYBODY:
        client.post("/people", who=who, name=f"Person {who}")
    for who, roles in STAFF.items():
        for role in roles:
            client.post(f"/people/{who}/roles", role=role, **SPAN)
    for place, who in enumerate(OFFICERS, 1):
        client.post("/custodians", place=f"CO-EAST-{place}", who=who, day="2001-01-01")
    client.post("/boxes", facility="EAST", box=3, place="CO-EAST-1")


def open_ceremony(client, number, steps, seats=SEATS, people=EVERYBODY):
    """A ceremony of so many steps, open, with these people in the room."""
    rows = "".join(f"{step},Step {step},{seats[step % len(seats)]}\n" for step in range(1, steps + 1))
    client.post("/ceremonies", number=number, facility="EAST", day=day_of(number), script="step,activity,seats\n" + rows)
    client.post(f"/ceremonies/{number}/opening", at=moment(number, 0))
    for first in range(0, len(people), 32):
        client.post(f"/ceremonies/{number}/sheet", way="in", who=people[first:first + 32], at=moment(number, 1))


def hold_ceremony(client, number, steps=60):
    """A whole ceremony: a bag is sealed and put away, each step is signed, all go out."""
    room = f"/ceremonies/{number}"
    open_ceremony(client, number, steps)
    client.post("/items", ceremony=number, item=f"HSM{number:06}", at=moment(number, 2))
    client.post(f"{room}/bags/BB{number:06}/seal", items=[f"HSM{number:06}"], at=moment(number, 3))
    client.post(f"{room}/safes/2", open=True, by="DD", at=moment(number, 4))
    client.post(f"{room}/bags/BB{number:06}/put", to="3", at=moment(number, 5))
    client.post(f"{room}/safes/2", open=False, by="DD", at=moment(number, 6))
    for step in range(1, steps + 1):
        client.post(f"{room}/steps/{step}/signature", at=moment(number, 10 + step))
    client.post(f"{room}/exceptions", text="The doors were opened late", at=moment(number, 1000), **{"pass": False})
    client.post(f"{room}/sheet", way="out", who=EVERYBODY, at=moment(number, 2000))
    client.post(f"{room}/closing", at=moment(number, 2001))


def play_people(client, count):
    """People whose keys and initials come in the order of their bytes."""
    yield
    for number in range(count):
        client.post("/people", who=code(number), name=f"Person {number}")


def play_scattered(client, count):
    """People of whom each has a place of its own among the others."""
    yield
    for number in (k * 123457 % 26**4 for k in range(count)):
        client.post_under(f"k{number:08}", "/people", who=code(number), name=f"Person {number}")


def play_ceremonies(client, count):
    """Whole ceremonies of 60 steps and 12 people."""
    enter_staff(client)
    yield
    for number in range(1, count // 200 + 1):
        hold_ceremony(client, number)


def play_sheet(client, count):
    """One ceremony, in whose room two people come and go in turn."""
    enter_staff(client)
    open_ceremony(client, 1, 1)
    client.post("/ceremonies/1/sheet", way="out", who=["FF", "DD"], at=moment(1, 2))
    yield
    for turn in range(count // 5):
        client.post("/ceremonies/1/sheet", way="out" if turn % 2 else "in", who=["FF", "DD"], at=moment(1, 3 + turn))


def play_crowded(client, count):
    """Signatures of 16 seats in a room of 128 people."""
    people = [code(number, 3) for number in range(128)]
    for number, who in enumerate(people):
        client.post("/people", who=who, name=f"Person {who}")
        client.post(f"/people/{who}/roles", role=["CA", "IW", "SA", "SW"][number % 4], **SPAN)
    open_ceremony(client, 1, 400, ["CA*4;IW*4;SA*4;SW*4"], people)
    yield
    for step in range(1, count // 10 + 1):
        client.post(f"/ceremonies/1/steps/{step}/signature", at=moment(1, 10 + step))


def play_questions(client, count):
    """The four questions in turn, of a register of ten ceremonies."""
    enter_staff(client)
    for number in range(1, 11):
        hold_ceremony(client, number)
    yield
    for turn in range(count):
        number = turn // 4 % 10 + 1
        client.get(["/people", f"/custodians/{day_of(number)}", f"/bags/BB{number:06}",
                    f"/ceremonies/{number}/room/{moment(number, 100)}"][turn % 4])


def play_reports(client, count):
    """Script and attendance in turn, of a ceremony of 400 steps."""
    enter_staff(client)
    hold_ceremony(client, 1, 400)
    yield
    for turn in range(count // 20):
        client.get(f"/ceremonies/1/{['script', 'attendance.csv'][turn % 2]}")


def play_repeats(client, count):
    """The last signature of a ceremony, again and again."""
    enter_staff(client)
    open_ceremony(client, 1, 60)
    client.post_under("again", "/ceremonies/1/steps/1/signature", at=moment(1, 11))
    yield
    for _ in range(count):
        client.post_under("again", "/ceremonies/1/steps/1/signature", at=moment(1, 11))


def play_refused(client, count):
    """Requests that are refused: for their path, their form, and what the register holds."""
    enter_staff(client)
    open_ceremony(client, 1, 60)
    yield
    for turn in range(count):
        kind = turn % 5
        if kind == 0:
            client.get("/nowhere")
        elif kind == 1:
            client.post("/people", who="aa", name="Ann")
        elif kind == 2:
            client.post("/people", who="AA", name="Ann")
        elif kind == 3:
            client.post("/ceremonies/1/steps/9/signature", at=moment(1, 20))
        else:
            client.post("/ceremonies/1/sheet", way="in", who=["AA"], at=moment(1, 20))


KINDS = {name.removeprefix("play_"): made for name, made in list(globals().items()) if name.startswith("play_")}


def streams_of(kind, count):
    """What comes before, all, and how many requests are measured."""
    client = Client()
    steps = KINDS[kind](client, count)
    next(steps)
    before, _ = client.take()
    list(steps)
    measured, number = client.take()
    return before, before + measured, number


def run(words, stream):
    """Plays a stream; answers the seconds of the processor and by the clock, the memory in kilobytes, and the output."""
    with tempfile.TemporaryFile() as source, tempfile.TemporaryFile() as output, tempfile.TemporaryFile() as errors:
        source.write(stream)
        source.seek(0)
        begun = time.monotonic()
        process = subprocess.Popen(words, stdin=source, stdout=output, stderr=errors)
        _, status, used = os.wait4(process.pid, 0)
        process.returncode = os.waitstatus_to_exitcode(status)
        taken = time.monotonic() - begun
        output.seek(0)
        errors.seek(0)
        if process.returncode:
            sys.exit(f"status {process.returncode}: {errors.read().decode()}")
        return used.ru_utime + used.ru_stime, taken, used.ru_maxrss, output.read(), errors.read()


def least(program, stream, over_a_file):
    """The least of some runs: the processor's seconds, the clock's, and the memory; and the last output."""
    runs = []
    for _ in range(TIMES):
        with tempfile.TemporaryDirectory() as room:
            words = ["--file", str(pathlib.Path(room) / "register.db")] if over_a_file else []
            runs.append(run([program, "run", *words], stream))
    return *[min(seen[k] for seen in runs) for k in range(3)], runs[-1][3]


def expect_answers(kind, before, output, number):
    """Each of the measured requests was answered as its kind expects."""
    statuses = re.findall(rb"HTTP/1\.1 (\d+) ", output)
    told = statuses[len(statuses) - number:]
    wrong = sum((status == b"200") == (kind == "refused") for status in told)
    if wrong or len(told) != number:
        sys.exit(f"{kind}: {wrong} of {number} answers are not those expected")


def times(program, kind, count, over_a_file):
    """Microseconds of the processor and by the clock for one request, and the memory in kilobytes."""
    before, stream, number = streams_of(kind, count)
    spent0, taken0, _, _ = least(program, before, over_a_file)
    spent, taken, memory, output = least(program, stream, over_a_file)
    expect_answers(kind, before, output, number)
    return (spent - spent0) * 1e6 / number, (taken - taken0) * 1e6 / number, memory, number


def instructions(program, kind, count):
    """Instructions of one request in memory, as valgrind counts them."""
    def counted(stream):
        words = ["valgrind", "--tool=callgrind", "--callgrind-out-file=/dev/null", program, "run"]
        return int(re.search(rb"Collected : (\d+)", run(words, stream)[4])[1])
    before, stream, number = streams_of(kind, count)
    return (counted(stream) - counted(before)) // number


def row_of(program, kind, count, counts):
    """The row of a kind."""
    once, twice = [times(program, kind, size, False) for size in (count, 2 * count)]
    growth = lambda: f"{twice[0] * twice[3] / (once[0] * once[3]):.1f}"
    cells = [kind, once[3], f"{once[0]:.0f}", growth(), once[2]]
    once, twice = [times(program, kind, size, True) for size in (count, 2 * count)]
    cells += [f"{once[0]:.0f}", growth(), f"{once[1]:.0f}"]
    if counts:
        cells.append(f"{instructions(program, kind, count):,}")
    return cells


def main():
    parser = argparse.ArgumentParser()
    parser.add_argument("program")
    parser.add_argument("--requests", type=int, default=2000)
    parser.add_argument("--instructions", action="store_true")
    parser.add_argument("kinds", nargs="*", metavar="KIND")
    given = parser.parse_intermixed_args()
    heads = ["Kind", "Requests", "In memory, µs", "2N / N", "kB", "Over a file, µs", "2N / N", "by the clock, µs"]
    heads += ["Instructions"] if given.instructions else []
    print("| " + " | ".join(heads) + " |\n|" + "---|" * len(heads), flush=True)
    for kind in given.kinds or KINDS:
        cells = row_of(given.program, kind, given.requests, given.instructions)
        print("| " + " | ".join(map(str, cells)) + " |", flush=True)


if __name__ == "__main__":
    main()
