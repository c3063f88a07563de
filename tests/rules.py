#!/usr/bin/env python3
"""Two readings of the rules agree: that of the program, and that of `tools/check.py`, which has none of its code.

    tests/rules.py PROGRAM [NAME ..]

Each stream is played to both: the whole requests of each case of `tests/cases` and of each kept stream, and 200 streams
that chance makes by a fixed seed, of some 120 commands each, about half of them refused. Then both are asked for all
people, custodians, bags, rooms, reports and commands. Each answer has to be the same byte for byte, but that any least
shortage may be named. `tools/check.py` itself is run over exports, and finds what is wrong in replies.
With names only the tests with these names run.

The last line is `N passed, M failed`, and the status is 0 where none failed.
"""
import sys

sys.dont_write_bytecode = True  # no files beside these

import collections
import json
import os
import re
import subprocess

import cases
import kcr
from chance import Chance
from kcr import HERE, SECONDS, Wrong, call, expect

import check  # of tools, where kcr looks for modules

STREAMS = 200  # that chance makes, with the seeds from 0
LIMITS = {25, 27}  # refusals at limits that chance does not reach
ANSWER = re.compile(rb"(?:HTTP/1\.1 100 Continue\r\n\r\n)?HTTP/1\.1 ([0-9]{3}) .*\r\n((?:[^\r\n]+\r\n)*)\r\n")
CUT = (400, 413, 501)  # the statuses of 1 to 6


class Asked(check.Register):
    """The register of `tools/check.py`, which here also answers questions, as docs/API.md has them."""

    PATHS = {"people": "/people", "custodians": "/custodians/{day}", "room": "/ceremonies/{ceremony}/room/{at}",
             "bag": "/bags/{serial}", "script": "/ceremonies/{ceremony}/script", "custody": "/custody",
             "attendance": "/ceremonies/{ceremony}/attendance.csv", "feed": "/commands/{after}"}

    def answer(self, method, target, body):
        """The answer to a command or a question: the status and the text of its body."""
        path = target.split("?")[0]
        parts = {name: found for name, form in self.PATHS.items() if (found := check.parts_of(path, form)) is not None}
        try:
            if method in ("GET", "HEAD"):
                check.refuse_if(not parts and self.is_command(path), 8)
                check.refuse_if(not parts, 7)
                [(name, values)] = parts.items()
                told = getattr(self, f"show_{name}", None) or getattr(self, name)
                told = told(**values)
                return 200, told if isinstance(told, str) else check.compact(told)
            check.refuse_if(parts and not self.is_command(path), 8)
        except check.Refused as refusal:
            return refusal.answer()
        return super().answer(method, target, body)

    @staticmethod
    def is_command(path):
        """Whether a command has this path."""
        return any(check.parts_of(path, form) is not None for form, _ in check.COMMANDS.values())

    def show_people(self):
        """All people with their trainings."""
        return {"people": [{"who": who, "name": self.names[who], "roles": self.trainings_of(who)}
                           for who in sorted(self.names)]}

    def trainings_of(self, who):
        """Somebody's trainings by first day, role and last day; a withdrawn one has the earliest day of those later
        withdrawals that do not come after its end."""
        rows = []
        for act, role, *days in self.roles.get(who, []):
            if act == "train":
                rows.append({"role": role, "from": days[0], "until": days[1]})
                continue
            for row in rows:
                if row["role"] == role and days[0] <= row["until"]:
                    row["withdrawn"] = min(days[0], row.get("withdrawn", days[0]))
        return sorted(rows, key=lambda row: (row["from"], check.ROLES.index(row["role"]), row["until"]))

    def show_custodians(self, day):
        """The places that have a holder on a day."""
        held = [(place, self.holder(place, day)) for place in check.PLACES]
        return {"day": day, "places": [{"place": place, "who": who} for place, who in held if who]}

    def show_room(self, ceremony, at):
        """Who is in a room at a moment."""
        self.known_ceremony(ceremony)
        return {"at": at, "in": self.present(ceremony, at)}

    def show_bag(self, serial):
        """Where a bag is, and its items."""
        check.refuse_if(serial not in self.bags, 12, thing=f"bag {serial}")
        return {"serial": serial, "spot": self.bags[serial], "items": self.items_in(serial)}

    def show_feed(self, after):
        """The accepted commands after the first ones, at most 1,000, as requests; none after more than there are."""
        check.refuse_if(int(after) > len(self.keys), 12, thing=f"command {after}")
        found = list(self.keys.items())[int(after):int(after) + 1_000]
        return "".join(request_of(path, key, members).decode() for key, (path, members, _) in found)


def request_of(path, key, members):
    """The request by which an export makes a command again."""
    body = json.dumps({"key": key, **members}, ensure_ascii=False, separators=(",", ":")).encode()
    return kcr.request(b"POST", path.encode(), body)


check.PARTS |= {"day": check.is_day, "at": check.is_moment,
                "after": lambda part: part == "0" or check.below(kcr.MOST_COMMANDS)(part)}


# To play a stream to both

def exchanges(stream, output):
    """The whole requests of a stream with the answers to them, up to one that closes."""
    requests, start, found = check.requests_of(stream), 0, []
    while head := ANSWER.match(output, start):
        is_last = b"connection: close" in head[2]
        if is_last and int(head[1]) in CUT:
            break
        request = next(requests)
        size = 0 if request[0] == "HEAD" else int(re.search(rb"content-length: ([0-9]+)", head[2])[1])
        start = head.end() + size
        found.append((request, (int(head[1]), output[head.end():start])))
        if is_last:
            break
    return found


def agree(register, pairs):
    """Sees that the answers to requests are those of the register here; how often each number was refused."""
    numbers = collections.Counter()
    for number, (request, got) in enumerate(pairs, 1):
        method, target, _ = request
        wanted = register.answer(*request)
        if method == "HEAD":
            wanted, got = (wanted[0], ""), (got[0], b"")
        numbers[wanted[0] if wanted[0] == 200 else json.loads(wanted[1] or '{"number":0}')["number"]] += 1
        if not check.is_right(register, wanted, got):
            raise Wrong(f"answer {number}, to {method} {target}: check.py says {wanted}, the program {got!r:.600}")
    return numbers


def questions(register):
    """Requests for all that a register shows."""
    days = sorted({day for commands in register.places.values() for day, _ in commands} | {"2025-02-13"})
    targets = ["/people", "/custody", "/commands/0", *(f"/custodians/{day}" for day in days),
               *(f"/bags/{serial}" for serial in register.bags)]
    for number, ceremony in register.ceremonies.items():
        moments = sorted({row[0] for row in ceremony.rows})[-3:]
        targets += [f"/ceremonies/{number}/{what}" for what in ("script", "attendance.csv")]
        targets += [f"/ceremonies/{number}/room/{at}" for at in moments]
    return b"".join(kcr.request(b"GET", target.encode()) for target in targets)


def both(program, requests, register=None):
    """Plays requests to both, and asks both for everything that this register has, or the one that they make; how often
    each number was refused."""
    if register is None:
        register = Asked()
        for request in requests:
            register.answer(*request)
    stream = b"".join(kcr.request(method.encode(), target.encode("latin1"), body) for method, target, body in requests)
    stream += questions(register)
    output, faults, status = call(program, "run", stream=stream)
    expect("how it ends", (b"", 0), (faults, status))
    pairs = exchanges(stream, output)
    expect("how many answers there are", len(list(check.requests_of(stream))), len(pairs))
    return agree(Asked(), pairs)


def played_cases(program, _room):
    """Both give the same answers to the whole requests of each case, and show the same after them."""
    seen, played = collections.Counter(), 0
    for case in cases.cases_in(HERE / "cases"):
        if cases.text_of(case, ".args", "").split() != ["run"]:
            continue
        pairs = exchanges(case.read_bytes(), case.with_name(f"{case.name}.stdout").read_bytes())
        try:
            seen += both(program, [request for request, _ in pairs])
        except Wrong as fault:
            raise Wrong(f"{case.name}: {fault}") from None
        played += bool(pairs)
    expect("the refusals of commands that no case has", set(), set(range(7, 33)) - set(seen))
    expect("whether most cases have whole requests", True, played > 230)


def played_files(program, _room):
    """Both give the same answers to each kept stream, and show the same after it."""
    for folder in kcr.folders():
        pairs = exchanges(kcr.kept(folder, "requests"), kcr.kept(folder, "answers"))
        both(program, [request for request, _ in pairs])


def played_by_chance(program, _room):
    """Both give the same answers to 200 streams that chance makes, and show the same after each."""
    seen = collections.Counter()
    for seed in range(STREAMS):
        try:
            stream = Chance(seed)
            seen += both(program, stream.requests, stream.register)
        except Wrong as fault:
            raise Wrong(f"the stream of seed {seed}: {fault}") from None
    expect("the refusals of commands that no stream has", LIMITS, set(range(11, 33)) - set(seen))
    expect("whether many commands were accepted", True, seen[200] > 50 * STREAMS)


# The tool

def checked(export, *words):
    """What `tools/check.py` prints of an export, and its status."""
    run = subprocess.run([sys.executable, HERE.parent / "tools" / "check.py", export, *map(str, words)],
                         capture_output=True, timeout=SECONDS)
    expect("standard error", b"", run.stderr)
    return run.stdout, run.returncode


def exported(program, room, name):
    """The export of a kept stream over a file, and the replies that the file keeps, as files."""
    file, export, replies = room / f"{name}.db", room / f"{name}.http", room / f"{name}.replies"
    call(program, "run", "--file", file, stream=kcr.kept(HERE / "files" / name, "requests"))
    export.write_bytes(call(program, "export", "--file", file)[0])
    with kcr.opened(file) as database:
        kept = [text for text, in database.execute("SELECT reply FROM keys ORDER BY accepted")]
    replies.write_text("".join(f"{text}\n" for text in kept))
    return export, replies


def tool(program, room):
    """`tools/check.py` accepts each command of an export, with the replies of the file, and prints the kept reports. An
    export is that of the commands, byte for byte."""
    for name in ("042", "072"):
        export, replies = exported(program, room, name)
        count = replies.read_bytes().count(b"\n")
        expect("with the replies", (b"check: %d accepted, 0 refused, 0 wrong\n" % count, 0),
               checked(export, "--answers", replies))
        printed, status = checked(export)
        lines = printed.decode().splitlines()
        expect("the replies", ([*replies.read_text().splitlines(), f"check: {count} accepted, 0 refused"], 0),
               ([line.split(" ", 4)[-1] for line in lines[:-1]] + lines[-1:], status))
        register = Asked()
        check.play(register, export.read_bytes())
        expect("the export", export.read_bytes(), register.show_feed("0").encode())
        for (word, *more), text in kcr.reports(HERE / "files" / name):
            words = ["--script" if word == "print" else f"--{word}", *more[1:]]
            expect(f"{name}: {' '.join(words)}", (text, 0), checked(export, *words))


def wrong_replies(program, room):
    """`tools/check.py` finds a reply that is another, one that is missing, and one too many."""
    export, replies = exported(program, room, "072")
    lines = replies.read_text().splitlines()
    place = next(number for number, line in enumerate(lines) if "seating" in line)
    told = json.loads(lines[place])
    other = check.compact({**told, "seating": ["ZZ", *told["seating"][1:]]})
    request = list(check.requests_of(export.read_bytes()))[place]
    last = list(check.requests_of(export.read_bytes()))[-1]
    for changed, line in [
            ([*lines[:place], other, *lines[place + 1:]],
             f"{place + 1} POST {request[1]}: expected 200 {lines[place]}; found 200 {other}; no seating"),
            (lines[:-1], f"{len(lines)} POST {last[1]}: expected 200 {lines[-1]}; found 0 nothing"),
            ([*lines, lines[-1]], f"{len(lines)} requests have {len(lines) + 1} answers")]:
        replies.write_text("".join(f"{text}\n" for text in changed))
        expect(line, (f"{line}\ncheck: {len(lines)} accepted, 0 refused, 1 wrong\n".encode(), 1),
               checked(export, "--answers", replies))


def documented(program, room):
    """The commands of docs/AUDIT.md for `tools/check.py` print what the page says of the example ceremony."""
    page = (HERE.parent / "docs" / "AUDIT.md").read_text(encoding="utf-8")
    block, line = re.search(r"(?ms)^```sh\n([^`]*tools/check\.py.*?)^```$.*?here `(check: .*?)`", page).groups()
    (room / "tools").symlink_to(HERE.parent / "tools")
    (room / "kcr").symlink_to(program)
    example = (HERE.parent / "examples" / "ceremony.http").read_bytes()
    call(program, "run", "--file", room / "register.db", stream=example)
    run = subprocess.run(["sh", "-ec", block], cwd=room, capture_output=True, timeout=SECONDS,
                         env={**os.environ, "PATH": f"{room}:{os.environ['PATH']}"})
    expect("what is printed", (f"{line}\n".encode(), b"", 0), (run.stdout, run.stderr, run.returncode))


def least_shortages(_program, _room):
    """Of seats CA, IW and CO for which the room has one administrator and one officer, [2] is a least shortage, and
    nothing else is; of two seats that nobody fits, each alone."""
    eligible = [["AA"], [], ["EA"]]
    for seats in ([1], [0, 1], [1, 2], [0, 1, 2], [0], [2], [0, 2]):
        expect(f"{seats}", seats == [1], check.is_least_shortage(eligible, seats))
    both_empty = Asked()
    both_empty.asked = [[], [], ["EA"]]
    wanted = (409, '{"number":32,"refusal":"short","seats":[1]}')
    for seats, is_right in ((b"1", True), (b"2", True), (b"3", False), (b"1,2", False), (b"2,1", False), (b"4", False),
                            (b"", False)):
        got = (409, b'{"number":32,"refusal":"short","seats":[%s]}' % seats)
        expect(f"seats {seats.decode()}", is_right, check.is_right(both_empty, wanted, got))
    expect("three officers' seats and two officers", [0, 1, 2], check.least_shortage([["EA", "EB"]] * 3))


def main():
    tests = [played_cases, played_files, played_by_chance, tool, wrong_replies, documented, least_shortages]
    kcr.judge_installed(tests, {documented: "sqlite3"}, __doc__)


if __name__ == "__main__":
    main()
