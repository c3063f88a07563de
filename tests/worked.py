#!/usr/bin/env python3
"""Worked examples of the register over a file, with every byte and row that the rules give.

    tests/worked.py PROGRAM [NAME ..]

Shown are the three reports after three ceremonies, from the program and as answers; who was in a room by a sheet whose
rows were entered out of order, also if the file has version 1 or 2 and its rows were written by sqlite3; the least
shortage of a step; a script of 400 steps, whole; the feeds of 1,010 commands; and a signature that is retried after its file was opened again. The
ceremonies are cases of tests/cases. With names only the tests with these names run.

The last line is `N passed, M failed`, and the status is 0 if none failed.
"""
import sys

sys.dont_write_bytecode = True  # no files beside these

import functools
import pathlib

import kcr
from changed import MOMENTS
from kcr import NOTHING_FOUND, TABLES, accepted, answer, call, change, expect, post
from program import EMPTY, NEWER

SCRIPT = b"""\
Ceremony 61 EAST 2025-02-13 open
Opened 2025-02-13T20:00:00Z
1 signed 2025-02-13T20:10:00Z Check bags
  CA BB
  IW AA
2 passed 2025-02-13T20:12:00Z Check bags
  CA BB
  IW AA
3 signed 2025-02-13T20:13:00Z Check bags
  CA BB
  IW AA
Exception 1 2025-02-13T20:12:00Z step 2 Read twice
"""
ATTENDANCE = b"""\
who,name,in,out
AA,Ann Abel,2025-02-13T20:05:00Z,
BB,Bob Berg,2025-02-13T20:05:00Z,2025-02-13T20:20:00Z
CC,"Cole, Cy",2025-02-13T20:05:00Z,2025-02-13T20:30:00Z
EA,Eva Ames,2025-02-13T20:05:00Z,
"""
CUSTODY = b"""\
safe 1 EAST shut
safe 2 EAST shut
safe 1 WEST shut
safe 2 WEST shut
BB51184287 spent
BB51184288 table EAST
  HSM4
"""
# a case, the words that ask for a report, the question that does so too and its kind, and the report
REPORTS = [
    ("step-out-of-order", ("print", "--ceremony", "61"), b"/ceremonies/61/script", b"text/plain", SCRIPT),
    ("presence-at-the-moment", ("attendance", "--ceremony", "61"), b"/ceremonies/61/attendance.csv", b"text/csv",
     ATTENDANCE),
    ("serial-used-once", ("custody",), b"/custody", b"text/plain", CUSTODY),
]


def filled(program, room, name):
    """A register's file that the requests of a case have filled."""
    file = room / name
    expect("the answers", (b"".join(kcr.case_answers(name)), b"", 0),
           call(program, "run", "--file", file, stream=b"".join(kcr.case(name))))
    return file


def shown(body, kind):
    """The answer to a question for a report."""
    return (b"HTTP/1.1 200 OK\r\ncontent-type: %s; charset=utf-8\r\ncontent-length: %d\r\n\r\n%s"
            % (kind, len(body), body))


# Reports

def reports(program, room):
    """The annotated script of a ceremony with an exception, the attendance of one whose sheet rows came out of order,
    and custody after a bag was cut: from the program and as answers."""
    for name, words, path, kind, text in REPORTS:
        file = filled(program, room, name)
        for _ in range(2):
            expect(words[0], (text, b"", 0), call(program, *words, "--file", file))
        expect(path.decode(), (shown(text, kind), b"", 0),
               call(program, "run", "--file", file, stream=kcr.request(b"GET", path)))
        expect("the audit", NOTHING_FOUND, call(program, "audit", "--file", file))


def script_of_400_steps(program, room):
    """A script of 400 steps, none of them done, has 802 lines once the ceremony is open, from the program and as an
    answer."""
    rows = b"".join(b"%d,a,CA\\n" % step for step in range(1, 401))
    planned = post(b"/ceremonies", b"c1", b'"number":61,"facility":"EAST","day":"2025-02-13",'
                                          b'"script":"step,activity,seats\\n%s"' % rows)
    opening = post(b"/ceremonies/61/opening", b"c2", b'"at":"2025-02-13T20:00:00Z"')
    text = b"Ceremony 61 EAST 2025-02-13 open\nOpened 2025-02-13T20:00:00Z\n" + b"".join(
        b"%d open a\n  seats CA\n" % step for step in range(1, 401))
    expect("its lines", 802, text.count(b"\n"))
    file, question = room / "register", kcr.request(b"GET", b"/ceremonies/61/script")
    expect("the answers", (accepted(1) + accepted(2) + shown(text, b"text/plain"), b"", 0),
           call(program, "run", "--file", file, stream=planned + opening + question))
    expect("print", (text, b"", 0), call(program, "print", "--ceremony", "61", "--file", file))


# The feed

def respelled(command):
    """A command whose body is written in another way: with a blank, and a member that is ignored."""
    head, body = command.split(b"\r\n\r\n")
    return kcr.request(b"POST", head.split(b" ")[1], b'{"more":7, ' + body[1:])


def fed(program, file, after):
    """What the program answers for the commands after number `after`."""
    return call(program, "run", "--file", file, stream=kcr.request(b"GET", b"/commands/%d" % after))


def feeds(program, room):
    """A feed has the requests of at most 1,000 accepted commands, however these were written. The feeds of a register,
    one after the other, make the same rows in a new file. An invalid command refuses the feeds that have it."""
    commands = [*kcr.short_ceremony(), *(kcr.person(b"p%d" % number, kcr.initials(number), b"Ann Abel")
                                         for number in range(1_000))]
    file, copied = room / "register", room / "copy"
    call(program, "run", "--file", file, stream=b"".join(map(respelled, commands)))
    for after in (0, 1, 1_000, 1_009, 1_010):
        expect(f"the feed after {after}", (shown(b"".join(commands[after:after + 1_000]), b"text/plain"), b"", 0),
               fed(program, file, after))
    call(program, "run", "--file", copied, stream=b"".join(commands))
    kcr.stored(copied, kcr.rows_of(file))
    change(file, "UPDATE keys SET command = 'nothing' WHERE accepted = 1005")
    expect("the feed of the invalid command",
           answer(b"500 Internal Server Error", b'{"number":34,"refusal":"disk"}'), fed(program, file, 1_000)[0])
    expect("a feed without it", (shown(b"".join(commands[4:1_004]), b"text/plain"), b"", 0), fed(program, file, 4))


# Sheet rows out of order, in a file of an older version

PEOPLE = [("AA", "Ann Abel"), ("BB", "Bob Berg"), ("CC", "Cole, Cy"), ("EA", "Eva Ames"), ("EB", "Eli Boon"),
          ("EE", "Eda East"), ("WC", "Wim Cobb")]
TRAININGS = [("AA", "CA"), ("AA", "IW"), ("BB", "CA")]
HOLDERS = [("CO-EAST-1", "EA"), ("CO-EAST-2", "EB"), ("CO-EAST-5", "EE"), ("CO-WEST-3", "WC")]
NEW_YEAR, DAY = 20_089, 20_132  # 2025-01-01 and 2025-02-13
IN, OUT = 1, 0
STAYS = [("AA", 5, None), ("BB", 5, 20), ("CC", 5, 30), ("EA", 5, None)]  # from and until, in minutes after 20:00


def at(minutes):
    """The number of the moment `minutes` after 20:00, or none."""
    return None if minutes is None else MOMENTS + 60 * minutes


def commands():
    """The accepted commands, as texts: seven people, three trainings, four custodians, a ceremony that is planned and
    opened, three requests of the sheet, of which the last is earlier than the second, and a signature."""
    moment = "2025-02-13T20:{}:00Z".format
    return [*(f"/people\n{who}\n{name}" for who, name in PEOPLE),
            *(f"/people/{who}/roles\n{role}\n2025-01-01\n2025-02-13" for who, role in TRAININGS),
            *(f"/custodians\n{place}\n{who}\n2025-01-01" for place, who in HOLDERS),
            "/ceremonies\n61\nEAST\n2025-02-13\nstep,activity,seats\r\n1,Check bags,CA;IW\r\n",
            f"/ceremonies/61/opening\n{moment('00')}",
            f"/ceremonies/61/sheet\nin\nAA,BB,CC,EA\n{moment('05')}",
            f"/ceremonies/61/sheet\nout\nCC\n{moment('30')}",
            f"/ceremonies/61/sheet\nout\nBB\n{moment('20')}",
            f"/ceremonies/61/steps/1/signature\n{moment('15')}"]


def reply(number, count):
    """The reply to command `number` of `count`; the last signs a step."""
    more = ',"seating":["BB","AA"],"step":1' if number == count else ""
    return f'{{"accepted":{number}{more}}}'


def tables():
    """The rows of each table after these commands, by the rules."""
    texts = commands()
    found = EMPTY | {
        "people": PEOPLE,
        "trainings": [(who, role, NEW_YEAR, DAY) for who, role in TRAININGS],
        "appointments": [(place, NEW_YEAR, who, None) for place, who in HOLDERS],
        "ceremonies": [(61, "EAST", DAY, 1, at(0), None)],
        "marks": [(61, at(15))],
        "steps": [(61, 1, "Check bags", "CA;IW", 1, at(15))],
        "seatings": [(61, 1, 1, "BB"), (61, 1, 2, "AA")],
        "sheet": [(who, at(since), 61, IN) for who, since, _ in STAYS]
                 + [(who, at(until), 61, OUT) for who, _, until in STAYS if until],
        "stays": [(who, at(since), 61, at(until)) for who, since, until in STAYS],
        "keys": [(f"r{number}", number, text, reply(number, len(texts))) for number, text in enumerate(texts, 1)],
    }
    return {name: sorted(found[name]) for name in TABLES}


def written(file, version, rows):
    """Writes a register's file of this version from nothing, with these rows in the tables that it has."""
    texts = {text.split()[2]: text for text in kcr.schema()}
    kept = [name for name in texts if name not in NEWER.get(version, ())]
    rows = rows | {"versions": [(version,)]}
    change(file, *(texts[name] for name in kept), *((f"INSERT INTO {name} VALUES ({', '.join('?' * len(row))})", row)
                                                   for name in kept for row in rows[name]))


def sheet_out_of_order(program, room):
    """Four stays by a sheet whose rows came out of order, from the program and from tables of versions 1, 2 and 3 that
    sqlite3 writes: the rows, attendance, and who is in the room a second before a stay ends and as it ends."""
    rows = tables()
    played = {name: found for name, found in kcr.rows_of(filled(program, room, "presence-at-the-moment")).items()
              if name != "keys"}
    expect("the rows that the program writes", {name: rows[name] for name in played}, played)
    room_at = b"/ceremonies/61/room/2025-02-13T20:%s:%sZ"
    before = answer(b"200 OK", b'{"at":"2025-02-13T20:19:59Z","in":["AA","BB","CC","EA"]}')
    ended = answer(b"200 OK", b'{"at":"2025-02-13T20:20:00Z","in":["AA","CC","EA"]}')
    again = post(b"/ceremonies/61/steps/1/signature", b"r20", b'"at":"2025-02-13T20:15:00Z"')
    stream = (kcr.request(b"GET", room_at % (b"19", b"59")) + kcr.request(b"GET", room_at % (b"20", b"00")) + again)
    signed = answer(b"200 OK", reply(20, 20).encode())
    for version in (1, 2, 3):
        file = room / f"version-{version}"
        written(file, version, rows)
        before_it = kcr.contents(file)
        expect(f"attendance of version {version}", (ATTENDANCE, b"", 0),
               call(program, "attendance", "--ceremony", "61", "--file", file))
        expect("the file after the report", before_it, kcr.contents(file))
        expect("who is in the room, and the signature again", (before + ended + signed, b"", 0),
               call(program, "run", "--file", file, stream=stream))
        expect("the audit", NOTHING_FOUND, call(program, "audit", "--file", file))
        kcr.stored(file, rows)


# Shortages and repeats

def least_shortage(program, room):
    """A step of CA, IW and CO with a visitor and an officer in the room: the refusal names only the first seat or only
    the second."""
    file, script = room / "register", b'"step,activity,seats\\n1,Check bags,CA;IW;CO\\n"'
    requests = kcr.case("signed-by-two")[:14] + [
        post(b"/ceremonies", b"c1", b'"number":61,"facility":"EAST","day":"2025-02-13","script":' + script),
        post(b"/ceremonies/61/opening", b"c2", b'"at":"2025-02-13T20:00:00Z"'),
        post(b"/ceremonies/61/sheet", b"c3", b'"way":"in","who":["CC","EA"],"at":"2025-02-13T20:05:00Z"')]
    signature = post(b"/ceremonies/61/steps/1/signature", b"c4", b'"at":"2025-02-13T20:10:00Z"')
    told = b"".join(accepted(number) for number in range(1, 18))
    shortages = [answer(b"409 Conflict", b'{"number":32,"refusal":"short","seats":[%d]}' % seat) for seat in (1, 2)]
    for words in ((), ("--file", file)):
        output, *end = call(program, "run", *words, stream=b"".join(requests) + signature)
        expect("the answers, the last of them one of two", (True, b"", 0),
               (output in [told + shortage for shortage in shortages], *end))


def signed_and_opened_again(program, room):
    """A signature that is retried with its key after the file was opened again gets its reply, and another one with
    that key is refused."""
    file, signature = filled(program, room, "signed-by-two"), kcr.case("signed-by-two")[-1]
    other = signature.replace(b"20:10:00", b"20:10:01")
    for _ in range(2):
        expect("the signature again", (kcr.case_answers("signed-by-two")[-1], b"", 0),
               call(program, "run", "--file", file, stream=signature))
    expect("another one", (answer(b"409 Conflict", b'{"number":11,"refusal":"key"}'), b"", 0),
           call(program, "run", "--file", file, stream=other))


TESTS = [reports, script_of_400_steps, feeds, sheet_out_of_order, least_shortage, signed_and_opened_again]


def main():
    if len(sys.argv) < 2:
        sys.exit(__doc__)
    program, names = str(pathlib.Path(sys.argv[1]).resolve()), sys.argv[2:]
    kcr.judge([(test.__name__, test.__doc__, functools.partial(test, program)) for test in TESTS
               if not names or test.__name__ in names])


if __name__ == "__main__":
    main()
