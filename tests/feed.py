#!/usr/bin/env python3
"""The accepted commands as requests: `GET /commands/{after}`.

    tests/feed.py PROGRAM [NAME ..]

Shown are, over each kept stream of `files` and the example's ceremony: that the feed is the accepted commands in the
order of their numbers, each as one request with exactly the members that the command names, in the order of
docs/API.md; that a new register that takes them gives the kept answers and has the same rows; that this register tells
them by the same bytes; that a register with the first of them takes the rest and keeps what it had; where the feed ends
and what it refuses; that it can be asked for while commands come in; and that a standby has a front of the commands
whenever the first register is killed. Long commands come as many at a time as fit into 1 MiB.

The last line is `N passed, M failed`, and the status is 0 where none failed.
"""
import sys

sys.dont_write_bytecode = True  # no files beside these

import json
import random
import re
import subprocess
import threading

import kcr
from kcr import MOST_COMMANDS, Wrong, call, expect

AT_MOST, LONGEST = 1000, 1_048_576  # commands, and their bytes, in one answer of the feed
KILLS = 50

# The members of each command behind its key, by the last part of its path that is no name or number, as in docs/API.md.
MEMBERS = {
    "people": "who name", "roles": "role from until", "withdrawals": "role day", "custodians": "place who day",
    "replacement": "who day", "release": "day", "boxes": "facility box place", "items": "ceremony item at",
    "ceremonies": "number facility day script", "opening": "at", "closing": "at", "sheet": "way who at",
    "signature": "at", "exceptions": "text pass at", "safes": "open by at", "seal": "items at", "take": "at",
    "put": "to at", "cut": "at",
}


def told_again(message):
    """A request for a command as the feed tells it."""
    head, body = re.split(rb"\n\r?\n", message.lstrip(b"\r\n"), maxsplit=1)
    path = head.split()[1].decode().partition("?")[0]
    kind = next(part for part in reversed(path.split("/")) if part in MEMBERS)
    given = json.loads(body)
    members = {name: given[name] for name in ["key", *MEMBERS[kind].split()]}
    text = json.dumps(members, ensure_ascii=False, separators=(",", ":")).encode()
    return kcr.request(b"POST", path.encode(), text)


def kept(answer):
    """The answer that a command gets again, in whatever way its first answer was asked for."""
    return kcr.answer(b"200 OK", answer.rpartition(b"\r\n\r\n")[2])


def bodies(stream, count):
    """The bodies of this many answers with 200."""
    found = []
    for _ in range(count):
        head, _, rest = stream.partition(b"\r\n\r\n")
        expect("the status", b"HTTP/1.1 200 OK", head.split(b"\r\n")[0])
        expect("the media type", True, b"\r\ncontent-type: text/plain; charset=utf-8\r\n" in head + b"\r\n")
        length = int(re.search(rb"content-length: ([0-9]+)", head)[1])
        found.append(rest[:length])
        stream = rest[length:]
    expect("what comes after the answers", b"", stream)
    return found


def asked(program, file, *numbers):
    """What the feed of a file answers after each of these numbers."""
    stream = b"".join(kcr.request(b"GET", b"/commands/%d" % number) for number in numbers)
    output, faults, status = call(program, "run", "--file", file, stream=stream)
    expect("the status", (b"", 0), (faults, status))
    return bodies(output, len(numbers))


def feed(program, file, after=0):
    """The feed of a file behind this number, asked for until it is empty; each answer but the last is full: a further
    command would be too many, or too long."""
    found = []
    while True:
        text, = asked(program, file, after)
        commands = kcr.messages(text)
        if found and len(kcr.messages(found[-1])) < AT_MOST:
            expect("whether a further command is too long", True,
                   not commands or len(found[-1]) + len(commands[0]) > LONGEST)
        if not commands:
            return b"".join(found)
        expect("whether the commands of one answer are few and short", True,
               len(commands) <= AT_MOST and len(text) <= LONGEST)
        found.append(text)
        after += len(commands)


def filled(program, file, stream):
    """Has a file take a stream, and returns the answers."""
    output, faults, status = call(program, "run", "--file", file, stream=stream)
    expect("the end of the run", (b"", 0), (faults, status))
    return output


def registers():
    """The kept streams and the example's ceremony: a name, the stream, and its accepted commands with their answers."""
    for folder in kcr.folders():
        yield folder.name, kcr.kept(folder, "requests"), kcr.commands(folder)
    examples = kcr.HERE.parent / "examples"
    stream = (examples / "ceremony.http").read_bytes()
    lines = (examples / "ceremony.answers.txt").read_bytes().splitlines()
    found = {}
    for message, line in zip(kcr.messages(stream), lines, strict=True):
        number = re.search(rb'\{"accepted":([0-9]+).*', line)
        if number:
            found.setdefault(int(number[1]), (message, kcr.answer(b"200 OK", number[0])))
    yield "the example", stream, [found[number] for number in sorted(found)]


# The tests

def each_command_once(program, room):
    """The feed is the accepted commands, each as one request with its members in their order."""
    for name, stream, commands in registers():
        file = room / f"{name}.db"
        filled(program, file, stream)
        wanted = b"".join(told_again(message) for message, _ in commands)
        expect(f"the feed of {name}", wanted, feed(program, file))


def the_same_register(program, room):
    """A new register that takes the feed gives the kept answers, has the same rows and tells the same feed."""
    for name, stream, commands in registers():
        first, second = room / f"{name}-1.db", room / f"{name}-2.db"
        filled(program, first, stream)
        told = feed(program, first)
        answers = b"".join(kept(answer) for _, answer in commands)
        expect(f"the answers of {name}", answers, filled(program, second, told))
        expect(f"the rows of {name}", kcr.rows_of(first), kcr.rows_of(second))
        expect(f"the feed of the second {name}", told, feed(program, second))
        line = (b"verified: %d commands\n" % len(commands), b"", 0)
        if commands:
            for file in (first, second):
                expect("verify", line, call(program, "verify", "--file", file))


def a_front_takes_the_rest(program, room):
    """A register that has the first commands gets the rest, by the feed after its count or by the whole feed."""
    chance = random.Random(7)
    for name, stream, commands in registers():
        first = room / f"{name}.db"
        filled(program, first, stream)
        count = chance.randrange(len(commands) + 1)
        front = b"".join(told_again(message) for message, _ in commands[:count])
        rest, = asked(program, first, count)
        whole = feed(program, first)
        for way, text in (("rest", rest), ("whole", whole)):
            if way == "rest" and len(commands) - count > AT_MOST:
                continue
            standby = room / f"{name}-{way}.db"
            filled(program, standby, front)
            filled(program, standby, text)
            expect(f"the rows of {name} by the {way}", kcr.rows_of(first), kcr.rows_of(standby))


def its_bounds(program, room):
    """Where the feed ends, what is refused, and that HEAD gets the head alone."""
    file = room / "register.db"
    filled(program, file, b"".join(kcr.short_ceremony()))
    expect("the feed behind the last command", [b""], asked(program, file, 10))
    for number in (11, MOST_COMMANDS):
        unknown = b'{"number":12,"refusal":"unknown","thing":"command %d"}' % number
        output = filled(program, file, kcr.request(b"GET", b"/commands/%d" % number))
        expect(f"the feed behind command {number}, which was never accepted", kcr.answer(b"404 Not Found", unknown), output)
    text, = asked(program, file, 9)
    expect("the last command", told_again(kcr.short_ceremony()[-1]), text)
    lost = kcr.answer(b"404 Not Found", b'{"number":7,"refusal":"path"}')
    for part in (b"", b"01", b"-1", b"+1", b"1.0", b"x", b"%d" % (MOST_COMMANDS + 1), b"18446744073709551617", b"1/2"):
        output = filled(program, file, kcr.request(b"GET", b"/commands/" + part))
        expect(f"/commands/{part.decode()}", lost, output)
    output = filled(program, file, kcr.request(b"HEAD", b"/commands/9"))
    head = b"HTTP/1.1 200 OK\r\ncontent-type: text/plain; charset=utf-8\r\ncontent-length: %d\r\n\r\n" % len(text)
    expect("HEAD", head, output)
    output = filled(program, file, kcr.request(b"POST", b"/commands/9", b"{}"))
    method = kcr.answer(b"405 Method Not Allowed", b'{"number":8,"refusal":"method"}', b"allow: GET, HEAD\r\n")
    expect("POST", method, output)


def a_thousand_at_a_time(program, room):
    """2,100 commands come in three answers."""
    file = room / "register.db"
    commands = [kcr.person(b"k%d" % n, kcr.initials(n), b"Somebody") for n in range(2100)]
    filled(program, file, b"".join(commands))
    texts = asked(program, file, 0, 1000, 2000, 2100)
    expect("how many commands each answer has", [1000, 1000, 100, 0], [len(kcr.messages(text)) for text in texts])
    expect("the answers joined", b"".join(commands), b"".join(texts))


def long_commands(program, room):
    """Ceremonies with scripts of some 100 KB come as many at a time as fit into an answer, also one by one."""
    file, copied = room / "register.db", room / "copy.db"
    commands = [kcr.long_plan(number) for number in range(1, 31)]
    answers = filled(program, file, b"".join(commands))
    told = feed(program, file)
    expect("the feed", b"".join(map(told_again, commands)), told)
    text, rest = asked(program, file, 0, 25)
    expect("how many commands come at a time", (LONGEST // len(told_again(commands[-1])), 5),
           (len(kcr.messages(text)), len(kcr.messages(rest))))
    expect("the answers of a copy", answers, filled(program, copied, told))
    expect("its rows", kcr.rows_of(file), kcr.rows_of(copied))


def get(port, path):
    """The body that a connection of its own gets for a path."""
    return bodies(kcr.exchange(port, [kcr.request(b"GET", path)]), 1)[0]


def while_it_serves(program, room):
    """The feed is asked for while commands come in; its answers joined are the commands so far."""
    count, told = 300, []
    commands = [kcr.person(b"k%d" % n, kcr.initials(n), b"Somebody") for n in range(count)]
    with kcr.Server(program, 2 * count + 1, room / "register.db") as server:
        sender = kcr.sender(server.port, commands)
        for _ in range(count):
            told.append(get(server.port, b"/commands/%d" % len(kcr.messages(b"".join(told)))))
        sender.join(kcr.SECONDS)
        told.append(get(server.port, b"/commands/%d" % len(kcr.messages(b"".join(told)))))
    expect("the answers joined", b"".join(commands), b"".join(told))


def command(number):
    """The command of this number, from 0 on. A fast machine takes thousands of them, so no list of them will do."""
    return kcr.person(b"k%d" % number, kcr.initials(number), b"Somebody")


def life(program, file, entered, seconds):
    """How many commands are answered in all if the program is killed this many seconds after its start."""
    with subprocess.Popen([program, "run", "--file", file], stdin=subprocess.PIPE, stdout=subprocess.PIPE,
                          bufsize=0) as run:
        clock = threading.Timer(seconds, run.kill)
        clock.start()
        while True:
            wanted, got = kcr.accepted(entered + 1), b""
            try:
                run.stdin.write(command(entered))
            except OSError:
                break
            while len(got) < len(wanted) and (more := run.stdout.read(len(wanted) - len(got))):
                got += more
            if got != wanted:
                break
            entered += 1
        clock.join()
    return entered


def a_standby(program, room):
    """A register is killed at random moments; the standby has a front of its commands, and goes on."""
    chance = random.Random(11)
    first, standby, entered, followed = room / "register.db", room / "standby.db", 0, 0
    for _ in range(KILLS):
        entered = life(program, first, entered, 0.02 + 0.1 * chance.random())
        text = feed(program, first, followed)
        filled(program, standby, text)
        followed += len(kcr.messages(text))
        if not entered <= followed <= entered + 1:
            raise Wrong(f"{entered} commands were answered, and the standby has {followed}")
        entered = followed
    expect("the feed of the standby", feed(program, first), feed(program, standby))
    expect("its rows", kcr.rows_of(first), kcr.rows_of(standby))
    expect("the next command on it", kcr.accepted(followed + 1), filled(program, standby, command(followed)))


TESTS = [each_command_once, the_same_register, a_front_takes_the_rest, its_bounds, a_thousand_at_a_time,
         long_commands, while_it_serves, a_standby]

if __name__ == "__main__":
    kcr.judge_installed(TESTS, {}, __doc__)
