#!/usr/bin/env python3
"""What an auditor finds: 71 things that somebody with sqlite3 can do to a register's file, and what is said of each.

    tests/audit.py PROGRAM [NAME ..]

A register of four ceremonies has 74 commands, those of `STREAM`, each with its number. At the last closing an
auditor has kept a copy, the number 74, and the digest of `kcr export --until 74`. Then a copy of the file is tampered
with, and each of four is asked, with the answer that the rules give:

- `kcr audit`: nothing, a finding, or why the file is not read
- `kcr verify`: how many commands it verifies, what differs, or why the file is not read
- the comparison of docs/AUDIT.md with the copy: the numbers of the commands that are gone or changed, and how many
  commands there are, with the greatest number
- the anchor: whether the export up to 74 still has the digest

If the file can be opened, `tools/differences.py` lists the rows that differ from those of a new file which got its
commands: as many as SQL finds. `kcr verify` and `tools/check.py` say of a stored seating that is not the first whether
it is one.

With names only the tests with these names run. The last line is `N passed, M failed`, and the status is 0 where none
failed.
"""
import sys

sys.dont_write_bytecode = True  # no files beside these

import collections
import concurrent.futures
import contextlib
import datetime
import hashlib
import json
import os
import pathlib
import re
import sqlite3
import subprocess
import tempfile

import kcr
from kcr import EPOCH, HERE, NOTHING_FOUND, call, change, copy, expect

LAST = 74
STAGES = [9, 22, 34, 43, 56, 73, LAST]  # after which commands a copy is kept
STREAM = r"""
1 /people {"who":"AA","name":"Ann Abel"}
2 /people {"who":"BB","name":"Bob Berg"}
3 /people {"who":"CC","name":"Cole, Cy"}
4 /people {"who":"DD","name":"Dan Dahl"}
5 /people {"who":"EA","name":"Eva Ames"}
6 /people {"who":"EB","name":"Eli Boon"}
7 /people {"who":"EC","name":"Eda East"}
8 /people {"who":"FF","name":"Fay Ford"}
9 /people {"who":"GG","name":"Gus Gray"}
10 /people {"who":"VV","name":"Vera Vale"}
11 /people/AA/roles {"role":"CA","from":"2025-01-01","until":"2026-12-31"}
12 /people/AA/roles {"role":"IW","from":"2025-01-01","until":"2026-12-31"}
13 /people/BB/roles {"role":"CA","from":"2025-01-01","until":"2026-12-31"}
14 /people/BB/roles {"role":"IW","from":"2025-01-01","until":"2026-12-31"}
15 /people/CC/roles {"role":"SSC1","from":"2025-01-01","until":"2026-12-31"}
16 /people/DD/roles {"role":"CA","from":"2025-01-01","until":"2026-12-31"}
17 /people/FF/roles {"role":"SSC2","from":"2025-01-01","until":"2026-12-31"}
18 /people/GG/roles {"role":"IW","from":"2025-01-01","until":"2026-12-31"}
19 /custodians {"place":"CO-EAST-1","who":"EA","day":"2025-01-01"}
20 /custodians {"place":"CO-EAST-2","who":"EB","day":"2025-01-01"}
21 /boxes {"facility":"EAST","box":1,"place":"CO-EAST-1"}
22 /boxes {"facility":"EAST","box":2,"place":"CO-EAST-2"}
23 /ceremonies {"number":1,"facility":"EAST","day":"2025-02-13",
    "script":"step,activity,seats\n1,Check bags,CA;IW\n2,Use keys,CA;IW;CO*2\n"}
24 /ceremonies/1/opening {"at":"2025-02-13T20:00:00Z"}
25 /ceremonies/1/sheet {"way":"in","who":["AA","BB","CC","DD","EA","EB","FF","VV"],"at":"2025-02-13T20:05:00Z"}
26 /ceremonies/1/steps/1/signature {"at":"2025-02-13T20:10:00Z"}
27 /items {"ceremony":1,"item":"HSM1","at":"2025-02-13T20:11:00Z"}
28 /items {"ceremony":1,"item":"CARD1","at":"2025-02-13T20:12:00Z"}
29 /ceremonies/1/bags/BB51184301/seal {"items":["HSM1"],"at":"2025-02-13T20:13:00Z"}
30 /ceremonies/1/bags/BB51184302/seal {"items":["CARD1"],"at":"2025-02-13T20:14:00Z"}
31 /ceremonies/1/safes/1 {"open":true,"by":"CC","at":"2025-02-13T20:15:00Z"}
32 /ceremonies/1/safes/2 {"open":true,"by":"FF","at":"2025-02-13T20:16:00Z"}
33 /ceremonies/1/bags/BB51184301/put {"to":"safe1","at":"2025-02-13T20:17:00Z"}
34 /ceremonies/1/bags/BB51184302/put {"to":"1","at":"2025-02-13T20:18:00Z"}
35 /ceremonies/1/exceptions {"text":"A phone rang","pass":false,"at":"2025-02-13T20:19:00Z"}
36 /ceremonies/1/steps/2/signature {"at":"2025-02-13T20:20:00Z"}
37 /ceremonies/1/safes/1 {"open":false,"by":"CC","at":"2025-02-13T20:25:00Z"}
38 /ceremonies/1/safes/2 {"open":false,"by":"FF","at":"2025-02-13T20:26:00Z"}
39 /ceremonies/1/sheet {"way":"out","who":["AA","BB","CC","DD","EA","EB","FF","VV"],"at":"2025-02-13T20:30:00Z"}
40 /ceremonies/1/closing {"at":"2025-02-13T20:31:00Z"}
41 /custodians/CO-EAST-2/replacement {"who":"EC","day":"2025-03-01"}
42 /people/GG/withdrawals {"role":"IW","day":"2025-03-01"}
43 /ceremonies {"number":2,"facility":"EAST","day":"2025-05-14",
    "script":"step,activity,seats\n1,Check bags,CA;IW\n2,Use keys,CO*2\n3,Print,CA\n"}
44 /ceremonies/2/opening {"at":"2025-05-14T17:00:00Z"}
45 /ceremonies/2/sheet {"way":"in","who":["AA","BB","DD","EA","EC","FF"],"at":"2025-05-14T17:05:00Z"}
46 /ceremonies/2/steps/1/signature {"at":"2025-05-14T17:10:00Z"}
47 /ceremonies/2/steps/2/signature {"at":"2025-05-14T17:12:00Z"}
48 /ceremonies/2/exceptions {"text":"The printer is broken","pass":true,"at":"2025-05-14T17:15:00Z"}
49 /ceremonies/2/safes/2 {"open":true,"by":"FF","at":"2025-05-14T17:16:00Z"}
50 /ceremonies/2/bags/BB51184302/take {"at":"2025-05-14T17:17:00Z"}
51 /ceremonies/2/bags/BB51184302/cut {"at":"2025-05-14T17:18:00Z"}
52 /ceremonies/2/bags/BB51184303/seal {"items":["CARD1"],"at":"2025-05-14T17:19:00Z"}
53 /ceremonies/2/bags/BB51184303/put {"to":"1","at":"2025-05-14T17:20:00Z"}
54 /ceremonies/2/safes/2 {"open":false,"by":"FF","at":"2025-05-14T17:21:00Z"}
55 /ceremonies/2/sheet {"way":"out","who":["AA","BB","DD","EA","EC","FF"],"at":"2025-05-14T17:30:00Z"}
56 /ceremonies/2/closing {"at":"2025-05-14T17:31:00Z"}
57 /ceremonies {"number":3,"facility":"WEST","day":"2025-08-13",
    "script":"step,activity,seats\n1,Check bags,CA;IW\n"}
58 /ceremonies/3/opening {"at":"2025-08-13T17:00:00Z"}
59 /ceremonies/3/exceptions {"text":"The train was late","pass":false,"at":"2025-08-13T17:02:00Z"}
60 /ceremonies/3/sheet {"way":"in","who":["AA","BB","DD"],"at":"2025-08-13T17:05:00Z"}
61 /ceremonies/3/steps/1/signature {"at":"2025-08-13T17:10:00Z"}
62 /ceremonies/3/exceptions {"text":"A lamp went out","pass":false,"at":"2025-08-13T17:12:00Z"}
63 /ceremonies/3/sheet {"way":"out","who":["AA","BB","DD"],"at":"2025-08-13T17:30:00Z"}
64 /ceremonies/3/closing {"at":"2025-08-13T17:31:00Z"}
65 /custodians/CO-EAST-2/release {"day":"2025-10-01"}
66 /ceremonies {"number":4,"facility":"EAST","day":"2025-11-12",
    "script":"step,activity,seats\n1,Check bags,CA;IW\n2,Use keys,CO\n"}
67 /ceremonies/4/opening {"at":"2025-11-12T20:00:00Z"}
68 /ceremonies/4/sheet {"way":"in","who":["AA","BB","DD","EA"],"at":"2025-11-12T20:05:00Z"}
69 /ceremonies/4/exceptions {"text":"No coffee","pass":false,"at":"2025-11-12T20:07:00Z"}
70 /ceremonies/4/steps/1/signature {"at":"2025-11-12T20:10:00Z"}
71 /ceremonies/4/steps/2/signature {"at":"2025-11-12T20:12:00Z"}
72 /people {"who":"WW","name":"Will West"}
73 /ceremonies/4/sheet {"way":"out","who":["AA","BB","DD","EA"],"at":"2025-11-12T20:30:00Z"}
74 /ceremonies/4/closing {"at":"2025-11-12T20:31:00Z"}
"""
ALL = set(range(1, LAST + 1))
VERIFIED = ("keys people trainings withdrawals appointments boxes safes bags items ceremonies marks steps seatings "
            "sheet stays exceptions").split()


def day(text):
    """The number of a day in the tables."""
    return (datetime.datetime.fromisoformat(text) - EPOCH).days


def moment(text):
    """The number of a moment, `YYYY-MM-DD HH:MM:SS`, in the tables."""
    return int((datetime.datetime.fromisoformat(text) - EPOCH).total_seconds())


def commands():
    """The commands of the stream, each its key, its path and its members."""
    lines = [line.split(" ", 2) for line in STREAM.replace("\n   ", "").strip().splitlines()]
    expect("the numbers of the lines", list(range(1, LAST + 1)), [int(number) for number, *_ in lines])
    return [(f"k{number}", path, json.loads(members)) for number, path, members in lines]


def played(program, file, listed, count=0):
    """Gives these commands to a file that has `count`; all are accepted, in this order."""
    stream = b"".join(kcr.request(b"POST", path.encode(), json.dumps({"key": key, **members}).encode())
                      for key, path, members in listed)
    output, faults, status = call(program, "run", "--file", file, stream=stream)
    numbers = [int(number) for number in re.findall(rb'\{"accepted":([0-9]+)', output)]
    expect("the answers", (list(range(count + 1, count + len(listed) + 1)), b"", 0), (numbers, faults, status))
    return file


class Kept:
    """What is kept of the register: a copy after each stage and, of the last one, the digest of its export."""

    def __init__(self, program, room):
        self.program, self.room, file, count = program, room, room / "register", 0
        for stage in STAGES:
            played(program, file, commands()[count:stage], count)
            copy(file, self.after(stage))
            count = stage
        self.digest = digest(program, file)
        with contextlib.closing(sqlite3.connect(copy(file, room / "earlier"))) as database:
            database.execute("PRAGMA wal_checkpoint(TRUNCATE)").fetchall()

    def after(self, stage):
        """The copy after this stage."""
        return self.room / f"after-{stage}"


def digest(program, file):
    """The digest of an export up to the last number, or None if it ends with a fault."""
    output, _, status = call(program, "export", "--file", file, "--until", LAST)
    return hashlib.sha256(output).hexdigest() if status == 0 else None


def compared(kept, file):
    """What the queries of docs/AUDIT.md say of a file and the copy: the numbers of commands that are gone or changed,
    how many there are, and the greatest number."""
    page = (HERE.parent / "docs" / "AUDIT.md").read_text(encoding="utf-8")
    gone, numbers = re.search(r"ATTACH 'earlier\.db' AS earlier;\n +(SELECT .*;)\n +(SELECT .*;)\"", page).groups()
    with kcr.opened(file) as database:
        database.execute("ATTACH ? AS earlier", (str(kept.room / "earlier"),))
        return {row[2] for row in database.execute(gone)}, database.execute(numbers).fetchone()[1:]


# What is said of a file

NOTHING, SAME, OTHER = NOTHING_FOUND, "the same digest", "another digest, or none"
FOREIGN, VERSION = (b"", b"open: foreign\n", 1), (b"", b"open: version\n", 1)
EVERY_ROW = (set(), (LAST, LAST))  # the comparison finds nothing


def verified(count=LAST):
    """All commands are the register's own."""
    return b"verified: %d commands\n" % count, b"", 0


def invalid(key):
    """A refusal by an invalid row, with its table and its key."""
    return b"", f"refused: 34 disk\ninvalid: {key}\n".encode(), 1


def finding(text):
    """A finding of `audit`, or of `verify` that has no row."""
    return f"finding: {text}\n".encode(), b"", 1


def told(kind, number, expected, found, word=""):
    """A finding of `verify` about an accepted command: what the rules give, what is stored, and of other people in a
    stored reply whether they are a seating."""
    return finding(f"{kind} {number}\n{kind}: expected {expected}; found {found}{word}")


def reply(number, *seating):
    """The reply to a command, with the people of step 1 if there are any."""
    people = ",".join(f'"{who}"' for who in seating)
    return f'{{"accepted":{number},"seating":[{people}],"step":1}}' if seating else f'{{"accepted":{number}}}'


def row(table, expected, found):
    """The first row of a table that differs. A row is written as sqlite3 does in its mode `quote`, with dates."""
    return finding(f"table {table}\nrow: expected {quoted(table, expected)}; found {quoted(table, found)}")


def quoted(table, values):
    """A row as sqlite3 writes it, with dates, or `none`."""
    if values is None:
        return "none"
    return ",".join("NULL" if value is None else f"'{value}'" if isinstance(value, str)
                    else kcr.dated(table, place, f"{value}") for place, value in enumerate(values))


Tampering = collections.namedtuple("Tampering", "name what audit verify compare anchor seated lists make")
TAMPERINGS = []


def tampering(name, what, *, audit=NOTHING, verify, compare=EVERY_ROW, anchor=SAME, seated=None, lists=None, make):
    """Adds something that is done to a file: SQL statements, or a call that makes the file. `seated` is what is said of
    a stored seating, and `lists` what `tools/differences.py` prints, if a test gives it."""
    TAMPERINGS.append(Tampering(name, what, audit, verify, compare, anchor, seated, lists, make))


def judged(kept, done):
    """Does one thing to a file, and sees what is said of it."""
    with tempfile.TemporaryDirectory() as room:
        asked(kept, done, pathlib.Path(room) / "register")


def asked(kept, done, file):
    """Does one thing to a file, and asks each of the four."""
    if callable(done.make):
        done.make(kept, file)
    else:
        change(copy(kept.after(LAST), file), *done.make)
    for word, wanted in (("audit", done.audit), ("verify", done.verify)):
        output, faults, status = call(kept.program, word, "--file", file)
        expect(word, wanted, (output, faults.replace(bytes(file), b"FILE"), status))
    expect("the comparison", done.compare, compared(kept, file))
    expect("the anchor", done.anchor, SAME if digest(kept.program, file) == kept.digest else OTHER)
    if done.verify not in (FOREIGN, VERSION):
        export, made = (file.with_name(name) for name in ("export", "made"))
        export.write_bytes(call(kept.program, "export", "--file", file)[0])
        call(kept.program, "run", "--file", made, stream=export.read_bytes())
        listed(file, made, done.lists)
    if done.seated is not None:
        replies = file.with_name("replies")
        with kcr.opened(file) as database:
            kept_ones = database.execute("SELECT reply FROM keys ORDER BY accepted").fetchall()
        replies.write_text("".join(f"{text}\n" for text, in kept_ones))
        output, _ = tool("check", export, "--answers", replies)
        expect("the seating", [done.seated], re.findall(r"(?m)found .*; ([a-z, ]*)$", output))


def tool(name, *words):
    """What a tool prints, and its status."""
    run = subprocess.run([sys.executable, HERE.parent / "tools" / f"{name}.py", *map(str, words)], capture_output=True,
                         timeout=kcr.SECONDS)
    expect(f"standard error of {name}", b"", run.stderr)
    return run.stdout.decode(), run.returncode


def differing(file, made):
    """The tables in which two files differ, each with the number of keys whose rows differ, as SQL counts them."""
    with kcr.opened(file) as database:
        database.execute("ATTACH ? AS made", (str(made),))
        for table in VERIFIED:
            columns = database.execute(f"PRAGMA table_info({table})").fetchall()
            key = ", ".join(f'"{name}"' for _, name, _, _, _, place in columns if place)
            sides = [f"SELECT {key} FROM (SELECT * FROM {one}.{table} EXCEPT SELECT * FROM {other}.{table})"
                     for one, other in (("main", "made"), ("made", "main"))]
            count, = database.execute(f"SELECT count(*) FROM ({' UNION '.join(sides)})").fetchone()
            if count:
                yield f"{table} {count}"


def listed(file, made, lists):
    """The rows that differ from those of a new file are listed by table, each table with as many as SQL counts."""
    wanted, counts, table = list(differing(file, made)), collections.Counter(), None
    output, status = tool("differences", file, made)
    *lines, last = output.splitlines()
    expect("the counts", (f"differences: {', '.join(wanted) or 'none'}", int(wanted != [])), (last, status))
    for line in lines:
        table = line.removeprefix("table ") if line.startswith("table ") else table
        counts[table] += line.startswith("row: expected ")
    expect("the lines", wanted, [f"{table} {count}" for table, count in counts.items()])
    expect("the rows", lines if lists is None else lists, lines)


# Rows alone: `verify` finds each, since the commands give other rows

FIRST_DAY, LAST_DAY = day("2025-01-01"), day("2026-12-31")
IN_1, OUT_1 = moment("2025-02-13 20:05:00"), moment("2025-02-13 20:30:00")
IN_4, OUT_4 = moment("2025-11-12 20:05:00"), moment("2025-11-12 20:30:00")
SIGNED, PASSED = 1, moment("2025-05-14 17:15:00")
STEP_1 = (1, 1, "Check bags", "CA;IW", SIGNED, moment("2025-02-13 20:10:00"))
STEP_2 = (1, 2, "Use keys", "CA;IW;CO*2", SIGNED, moment("2025-02-13 20:20:00"))
RANG = (1, 1, "A phone rang", moment("2025-02-13 20:19:00"), None)
HELD = ("CO-EAST-2", FIRST_DAY, "EB", day("2025-03-01"))
GUS = ("GG", "IW", FIRST_DAY, LAST_DAY, day("2025-03-01"))
CEREMONY_1 = (1, "EAST", day("2025-02-13"), 2, moment("2025-02-13 20:00:00"), moment("2025-02-13 20:31:00"))
MARK_1 = (1, moment("2025-02-13 20:26:00"))

tampering("name", "somebody gets another name", verify=row("people", ("BB", "Bob Berg"), ("BB", "Bob Burg")),
          make=["UPDATE people SET name = 'Bob Burg' WHERE who = 'BB'"])
tampering("step_moment", "a step is signed a minute later", verify=row("steps", STEP_1, (*STEP_1[:5], STEP_1[5] + 60)),
          make=["UPDATE steps SET at = at + 60 WHERE ceremony = 1 AND step = 1"])
tampering("seating_swapped", "two people who both fit both seats change places",
          verify=row("seatings", (1, 1, 1, "AA"), (1, 1, 1, "BB")),
          lists=["table seatings", "row: expected 1,1,1,'AA'; found 1,1,1,'BB'",
                 "row: expected 1,1,2,'BB'; found 1,1,2,'AA'"],
          make=["UPDATE seatings SET who = CASE who WHEN 'AA' THEN 'BB' ELSE 'AA' END WHERE ceremony = 1 AND step = 1"])
tampering("exception_deleted", "an exception is gone",
          verify=row("exceptions", RANG, (2, 1, "The printer is broken", PASSED, 3)),
          make=["DELETE FROM exceptions WHERE ceremony = 1"])
tampering("exception_text", "an exception says something else",
          verify=row("exceptions", RANG, (1, 1, "A phone was mute", *RANG[3:])),
          make=["UPDATE exceptions SET text = 'A phone was mute' WHERE ceremony = 1"])
tampering("training_inserted", "a visitor is trained", verify=row("trainings", None, ("VV", "CA", FIRST_DAY, LAST_DAY)),
          make=[f"INSERT INTO trainings VALUES ('VV', 'CA', {FIRST_DAY}, {LAST_DAY})"])
tampering("stay_deleted", "a visitor's stay is gone, the sheet has it still",
          verify=row("stays", ("VV", IN_1, 1, OUT_1), None), make=["DELETE FROM stays WHERE who = 'VV'"])
tampering("stay_shortened", "a visitor's stay ends a minute earlier, the sheet is as it was",
          verify=row("stays", ("VV", IN_1, 1, OUT_1), ("VV", IN_1, 1, OUT_1 - 60)),
          make=["UPDATE stays SET until = until - 60 WHERE who = 'VV'"])
tampering("visitor_erased", "a visitor's stay and the rows of the sheet are gone",
          verify=row("sheet", ("VV", IN_1, 1, 1), None),
          make=["DELETE FROM stays WHERE who = 'VV'", "DELETE FROM sheet WHERE who = 'VV'"])
tampering("mark", "a mark is a minute later", verify=row("marks", MARK_1, (1, MARK_1[1] + 60)),
          make=["UPDATE marks SET at = at + 60 WHERE ceremony = 1"])
tampering("appointment_end", "an officer holds a place ten days longer",
          verify=row("appointments", HELD, (*HELD[:3], HELD[3] + 10)),
          make=["UPDATE appointments SET until = until + 10 WHERE who = 'EB'"])
tampering("withdrawal_deleted", "a withdrawn training counts again", verify=row("withdrawals", GUS, None),
          make=["DELETE FROM withdrawals"])
tampering("box_place", "a box belongs to another place",
          verify=row("boxes", ("EAST", 2, "CO-EAST-2"), ("EAST", 2, "CO-EAST-3")),
          make=["UPDATE boxes SET place = 'CO-EAST-3' WHERE box = 2"])
tampering("activity", "a step was something else",
          verify=row("steps", STEP_1, (1, 1, "Count bags", *STEP_1[3:])),
          make=["UPDATE steps SET activity = 'Count bags' WHERE ceremony = 1 AND step = 1"])
tampering("safe_opened", "a safe is open", verify=row("safes", ("EAST", 1, 0), ("EAST", 1, 1)),
          make=["UPDATE safes SET state = 1 WHERE facility = 'EAST' AND safe = 1"])
tampering("ceremony_reopened", "a closed ceremony is open",
          verify=row("ceremonies", CEREMONY_1, (*CEREMONY_1[:3], 1, CEREMONY_1[4], None)),
          make=["UPDATE ceremonies SET state = 1, closed = NULL WHERE number = 1"])
tampering("bag_moved", "a bag is on the table, and not in its box",
          verify=row("bags", ("BB51184303", "box 1 EAST"), ("BB51184303", "table EAST")),
          make=["UPDATE bags SET spot = 'table EAST' WHERE serial = 'BB51184303'"])
tampering("item_moved", "an item is in another bag",
          verify=row("items", ("HSM1", None, "BB51184301"), ("HSM1", None, "BB51184303")),
          make=["UPDATE items SET serial = 'BB51184303' WHERE code = 'HSM1'"])
tampering("item_deleted", "an item is gone",
          verify=row("items", ("CARD1", None, "BB51184303"), ("HSM1", None, "BB51184301")),
          make=["DELETE FROM items WHERE code = 'CARD1'"])

# Stays alone: `audit` judges by the sheet, and attendance is printed from the stays

tampering("stays_leave_one", "by the stays all but one go out a second early",
          verify=row("stays", ("BB", IN_4, 4, OUT_4), ("BB", IN_4, 4, OUT_4 - 1)),
          make=["UPDATE stays SET until = until - 1 WHERE ceremony = 4 AND who <> 'AA'"])
tampering("stays_too_short", "by the stays an officer was gone before the step with her seat",
          verify=row("stays", ("EA", IN_1, 1, OUT_1), ("EA", IN_1, 1, IN_1 + 60)),
          make=["UPDATE stays SET until = since + 60 WHERE who = 'EA' AND ceremony = 1"])

# Rows that break a rule: `audit` finds each by itself

tampering("visitor_seated", "a visitor sits in an officer's seat", audit=finding("seating 1 2"),
          verify=row("seatings", (1, 2, 3, "EA"), (1, 2, 3, "VV")),
          make=["UPDATE seatings SET who = 'VV' WHERE ceremony = 1 AND step = 2 AND seat = 3"])
tampering("missing_box", "a bag is in a box that is not there", audit=finding("bag BB51184303"),
          verify=row("bags", ("BB51184303", "box 1 EAST"), ("BB51184303", "box 9 EAST")),
          make=["UPDATE bags SET spot = 'box 9 EAST' WHERE serial = 'BB51184303'"])
tampering("spent_bag", "an item is in a bag that was cut", audit=finding("custody CARD1"),
          verify=row("items", ("CARD1", None, "BB51184303"), ("CARD1", None, "BB51184302")),
          make=["UPDATE items SET serial = 'BB51184302' WHERE code = 'CARD1'"])
tampering("other_officer", "another person held a place", audit=finding("seating 1 2"),
          verify=row("appointments", ("CO-EAST-1", FIRST_DAY, "EA", None), ("CO-EAST-1", FIRST_DAY, "EC", None)),
          make=["UPDATE appointments SET who = 'EC' WHERE place = 'CO-EAST-1'"])
tampering("more_seats", "a step has a seat more than people", audit=finding("seating 1 2"),
          verify=row("steps", STEP_2, (*STEP_2[:3], "CA;IW;CO*3", *STEP_2[4:])),
          make=["UPDATE steps SET seats = 'CA;IW;CO*3' WHERE ceremony = 1 AND step = 2"])
tampering("out_early", "by the sheet an officer was out at the step with his seat", audit=finding("seating 1 2"),
          verify=row("sheet", ("EB", OUT_1, 1, 0), ("EB", OUT_1 - 900, 1, 0)),
          make=["UPDATE sheet SET at = at - 900 WHERE who = 'EB' AND way = 0"])
tampering("one_alone", "by sheet and stays all but one go out a second early",
          audit=finding("lone 4 2025-11-12T20:29:59Z"),
          verify=row("sheet", ("BB", OUT_4, 4, 0), ("BB", OUT_4 - 1, 4, 0)),
          make=["UPDATE stays SET until = until - 1 WHERE ceremony = 4 AND who <> 'AA'",
                "UPDATE sheet SET at = at - 1 WHERE ceremony = 4 AND way = 0 AND who <> 'AA'"])

# Replies: an export has none, so the anchor cannot tell

tampering("seating_and_reply", "two people of a seating change places, in the reply too", compare=({26}, (LAST, LAST)),
          verify=told("reply", 26, reply(26, "AA", "BB"), reply(26, "BB", "AA"), "; a seating"),
          seated="a seating, but not the first",
          make=["UPDATE seatings SET who = CASE who WHEN 'AA' THEN 'BB' ELSE 'AA' END WHERE ceremony = 1 AND step = 1",
                f"UPDATE keys SET reply = '{reply(26, 'BB', 'AA')}' WHERE accepted = 26"])
tampering("another_seated", "another person who fits has the seat, in the reply too", compare=({26}, (LAST, LAST)),
          verify=told("reply", 26, reply(26, "AA", "BB"), reply(26, "DD", "BB"), "; a seating"),
          seated="a seating, but not the first",
          make=["UPDATE seatings SET who = 'DD' WHERE ceremony = 1 AND step = 1 AND seat = 1",
                f"UPDATE keys SET reply = '{reply(26, 'DD', 'BB')}' WHERE accepted = 26"])
tampering("visitor_and_reply", "a visitor sits in a seat, in the reply too", audit=finding("seating 1 1"),
          compare=({26}, (LAST, LAST)), seated="no seating",
          verify=told("reply", 26, reply(26, "AA", "BB"), reply(26, "VV", "BB"), "; no seating"),
          make=["UPDATE seatings SET who = 'VV' WHERE ceremony = 1 AND step = 1 AND seat = 1",
                f"UPDATE keys SET reply = '{reply(26, 'VV', 'BB')}' WHERE accepted = 26"])
tampering("reply", "a reply has another number", compare=({50}, (LAST, LAST)),
          verify=told("reply", 50, reply(50), reply(51)),
          make=[f"UPDATE keys SET reply = '{reply(51)}' WHERE accepted = 50"])
tampering("reply_blank", "a reply has a blank more", compare=({50}, (LAST, LAST)),
          verify=told("reply", 50, reply(50), '{"accepted": 50}'),
          make=["""UPDATE keys SET reply = '{"accepted": 50}' WHERE accepted = 50"""])
tampering("numbers_swapped", "two commands change their numbers and keep their replies", compare=({1, 2}, (LAST, LAST)),
          verify=told("reply", 1, reply(1), reply(2)), anchor=OTHER,
          make=["UPDATE keys SET accepted = 1000 WHERE accepted = 1", "UPDATE keys SET accepted = 1 WHERE accepted = 2",
                "UPDATE keys SET accepted = 2 WHERE accepted = 1000"])

# Commands: what is among the accepted ones alone

tampering("exception_and_command", "an exception is gone with its command", verify=told("number", 35, 35, 36),
          compare=({35}, (LAST - 1, LAST)), anchor=OTHER,
          make=["DELETE FROM exceptions WHERE ceremony = 1", "DELETE FROM keys WHERE accepted = 35"])
tampering("last_number", "the last command has the next number", verify=told("number", 74, 74, 75),
          compare=({74}, (LAST, LAST + 1)), anchor=OTHER, make=["UPDATE keys SET accepted = 75 WHERE accepted = 74"])
tampering("number", "a command has a number far from its own", verify=told("number", 5, 5, 6),
          compare=({5}, (LAST, 500)), anchor=OTHER, make=["UPDATE keys SET accepted = 500 WHERE accepted = 5"])
tampering("no_command", "a command's text is none", compare=({50}, (LAST, LAST)), anchor=OTHER,
          verify=told("command", 50, "a command", "x y"),
          make=["UPDATE keys SET command = 'x' || char(10) || 'y' WHERE accepted = 50"])
tampering("refused_command", "a command signs another step", compare=({26}, (LAST, LAST)), anchor=OTHER,
          verify=told("refused", 26, '{"next":1,"number":23,"refusal":"order"}', reply(26, "AA", "BB")),
          make=["UPDATE keys SET command = replace(command, 'steps/1', 'steps/2') WHERE accepted = 26"])
tampering("command_name", "a command enters another name", compare=({2}, (LAST, LAST)), anchor=OTHER,
          verify=row("people", ("BB", "Bob Burg"), ("BB", "Bob Berg")),
          make=["UPDATE keys SET command = replace(command, 'Berg', 'Burg') WHERE accepted = 2"])
tampering("command_moment", "a command signs half a minute later", compare=({26}, (LAST, LAST)), anchor=OTHER,
          verify=row("steps", (*STEP_1[:5], STEP_1[5] + 30), STEP_1),
          make=["UPDATE keys SET command = replace(command, '20:10:00', '20:10:30') WHERE accepted = 26"])
tampering("keys_emptied", "there are no accepted commands", audit=(NOTHING[0], b"note: FILE has no command\n", 0),
          verify=row("people", None, ("AA", "Ann Abel")), compare=(ALL, (0, None)), anchor=OTHER,
          make=["DELETE FROM keys"])
tampering("emptied", "the register is empty", audit=(NOTHING[0], b"note: FILE has no command\n", 0),
          verify=(b"", b"note: FILE has no command\n", 1), compare=(ALL, (0, None)), anchor=OTHER,
          make=[f"DELETE FROM {table}" for table in kcr.TABLES if table not in ("versions", "safes")])

# Invalid rows, and databases that are no register

tampering("seats_spelled", "the seats of a step have another spelling", audit=invalid("steps 1,2"),
          verify=invalid("steps 1,2"),
          lists=["table steps", "row: expected 1,2,'Use keys','CA;IW;CO*2',1,1739478000 (2025-02-13T20:20:00Z); "
                 "found 1,2,'Use keys','CA;IW;CO;CO',1,1739478000 (2025-02-13T20:20:00Z)"],
          make=["UPDATE steps SET seats = 'CA;IW;CO;CO' WHERE ceremony = 1 AND step = 2"])
tampering("line_break", "a name has a line break", audit=invalid("people 'BB'"), verify=invalid("people 'BB'"),
          lists=["table people", "row: expected 'BB','Bob Berg'; found 'BB','Bob'||char(10)||'Berg'"],
          make=["UPDATE people SET name = 'Bob' || char(10) || 'Berg' WHERE who = 'BB'"])
tampering("no_such_day", "a ceremony is on a day after 2099", audit=invalid("ceremonies 1"),
          verify=invalid("ceremonies 1"),
          lists=["table ceremonies", "row: expected 1,'EAST',20132 (2025-02-13),2,1739476800 (2025-02-13T20:00:00Z),"
                 "1739478660 (2025-02-13T20:31:00Z); found 1,'EAST',99999 (2243-10-16),2,"
                 "1739476800 (2025-02-13T20:00:00Z),1739478660 (2025-02-13T20:31:00Z)"],
          make=["UPDATE ceremonies SET day = 99999 WHERE number = 1"])
tampering("older_version", "a file of version 3 says that it is of version 2", audit=FOREIGN, verify=FOREIGN,
          anchor=OTHER, make=["UPDATE versions SET number = 2"])
tampering("later_version", "a file says that it is of version 4", audit=VERSION, verify=VERSION, anchor=OTHER,
          make=["UPDATE versions SET number = 4"])
tampering("table_more", "there is a table more", audit=FOREIGN, verify=FOREIGN, anchor=OTHER,
          make=["CREATE TABLE more (a INT)"])
tampering("trigger", "there is a trigger", audit=FOREIGN, verify=FOREIGN, anchor=OTHER,
          make=["CREATE TRIGGER more AFTER INSERT ON people BEGIN DELETE FROM people; END"])
tampering("analyzed", "sqlite3 has counted rows by ANALYZE", audit=FOREIGN, verify=FOREIGN, anchor=OTHER,
          make=["ANALYZE"])
tampering("index_dropped", "the keys have no index, as if two could be the same", audit=FOREIGN, verify=FOREIGN,
          anchor=OTHER,
          make=["ALTER TABLE keys RENAME TO old",
                next(text for text in kcr.schema() if "TABLE keys" in text).replace(" NOT NULL UNIQUE", " NOT NULL"),
                "INSERT INTO keys SELECT * FROM old", "DROP TABLE old"])

# Another history: rows and commands agree, so only what is kept outside tells

REPLACED = ["UPDATE people SET name = 'Bob Burg' WHERE who = 'BB'",
            "UPDATE keys SET command = replace(command, 'Berg', 'Burg') WHERE accepted = 2"]
tampering("name_with_command", "somebody gets another name, in the command too", verify=verified(),
          compare=({2}, (LAST, LAST)), anchor=OTHER, make=REPLACED)
tampering("moment_with_command", "a step is signed half a minute later, in the command too", verify=verified(),
          compare=({26}, (LAST, LAST)), anchor=OTHER,
          make=["UPDATE steps SET at = at + 30 WHERE ceremony = 1 AND step = 1",
                "UPDATE keys SET command = replace(command, '20:10:00', '20:10:30') WHERE accepted = 26"])
tampering("text_with_command", "an exception says something else, in the command too", verify=verified(),
          compare=({35}, (LAST, LAST)), anchor=OTHER,
          make=["UPDATE exceptions SET text = 'A phone was mute' WHERE ceremony = 1",
                "UPDATE keys SET command = replace(command, 'rang', 'was mute') WHERE accepted = 35"])
tampering("renumbered", "an exception is gone with its command, and those after it have lower numbers",
          verify=verified(LAST - 1), compare=(set(range(35, LAST + 1)), (LAST - 1, LAST - 1)), anchor=OTHER,
          make=["DELETE FROM exceptions WHERE ceremony = 1", "DELETE FROM keys WHERE accepted = 35",
                *(f"""UPDATE keys SET accepted = {number - 1}, reply = replace(reply, '"accepted":{number}',
                      '"accepted":{number - 1}') WHERE accepted = {number}""" for number in range(36, LAST + 1))])
tampering("key", "a command has another key", verify=verified(), compare=({50}, (LAST, LAST)), anchor=OTHER,
          make=['UPDATE keys SET "key" = \'x50\' WHERE accepted = 50'])
tampering("swapped_with_replies", "two commands change their numbers and their replies", verify=verified(),
          compare=({1, 2}, (LAST, LAST)), anchor=OTHER,
          make=["UPDATE keys SET accepted = 1000 WHERE accepted = 1",
                """UPDATE keys SET accepted = 1, reply = '{"accepted":1}' WHERE accepted = 2""",
                """UPDATE keys SET accepted = 2, reply = '{"accepted":2}' WHERE accepted = 1000"""])
tampering("line_ends", "a script has other line ends", verify=verified(), compare=({23}, (LAST, LAST)), anchor=OTHER,
          make=["UPDATE keys SET command = replace(command, 'CA;IW' || char(10), 'CA;IW' || char(13) || char(10)) "
                "WHERE accepted = 23"])


def more_at_the_end(kept, file):
    """A training is entered."""
    training = {"role": "SW", "from": "2025-01-01", "until": "2026-12-31"}
    played(kept.program, copy(kept.after(LAST), file), [("k75", "/people/GG/roles", training)], LAST)


tampering("training_at_the_end", "a training is entered after the copy", verify=verified(LAST + 1),
          compare=(set(), (LAST + 1, LAST + 1)), make=more_at_the_end)


def rewritten(stage, rest_of):
    """After a stage, other commands than those of the stream are given to the register."""
    def make(kept, file):
        played(kept.program, copy(kept.after(stage), file), rest_of(commands()[stage:]), stage)
    return make


def with_training(rest):
    """A training before the first ceremony, with a key that no other command has."""
    return [("k0", "/people/VV/roles", {"role": "SW", "from": "2025-01-01", "until": "2025-12-31"}), *rest]


def with_another_visitor(rest):
    """Another visitor in place of the one who was there."""
    return [(key, path, json.loads(json.dumps(members).replace('"VV"', '"XX"'))) for key, path, members in rest]


def closed_later(rest):
    """The last ceremony was closed an hour later."""
    return [(key, path, {"at": "2025-11-12T21:31:00Z"}) for key, path, _ in rest]


tampering("rewritten_training", "rewritten by kcr, with a training more", verify=verified(LAST + 1),
          compare=(set(range(23, LAST + 1)), (LAST + 1, LAST + 1)), anchor=OTHER, make=rewritten(22, with_training))
tampering("rewritten_visitor", "rewritten by kcr, with another visitor", verify=verified(),
          compare=({10, 25, 39}, (LAST, LAST)), anchor=OTHER, make=rewritten(9, with_another_visitor))
tampering("rewritten_exception", "rewritten by kcr, without an exception", verify=verified(LAST - 1),
          compare=(set(range(35, LAST + 1)), (LAST - 1, LAST - 1)), anchor=OTHER,
          make=rewritten(34, lambda rest: rest[1:]))
tampering("rewritten_closing", "rewritten by kcr, with the last closing an hour later", verify=verified(),
          compare=({74}, (LAST, LAST)), anchor=OTHER, make=rewritten(73, closed_later))


def copied(stage):
    """The register as it was after a stage."""
    return lambda kept, file: copy(kept.after(stage), file)


def older(kept, file):
    """A backup of the second closing as one file."""
    with kcr.opened(kept.after(56)) as database:
        database.execute("VACUUM INTO ?", (str(file),))


def older_log(kept, file):
    """The log as it was after the second closing, beside the file of today."""
    copy(kept.after(LAST), file)
    kcr.log_of(file).write_bytes(kcr.log_of(kept.after(56)).read_bytes())


def cut(count, name, what, make):
    """A register that has only the first commands: its export is a prefix of that which was kept."""
    gone = set(range(count + 1, LAST + 1))
    tampering(name, what, verify=verified(count), compare=(gone, (count, count)), anchor=OTHER, make=make)


cut(73, "last_gone", "the last command is gone with its rows", copied(73))
cut(43, "last_31_gone", "the last 31 commands are gone with their rows", copied(43))
cut(56, "older_backup", "the file is an older backup", older)
cut(56, "older_log", "an older log is beside the file", older_log)

# What changes nothing


def of_other_pages(kept, file):
    """The file has pages of another size."""
    with contextlib.closing(sqlite3.connect(copy(kept.after(LAST), file), isolation_level=None)) as database:
        for statement in ("PRAGMA journal_mode = DELETE", "PRAGMA page_size = 1024", "VACUUM"):
            database.execute(statement).fetchall()
        expect("the size of a page", (1024,), database.execute("PRAGMA page_size").fetchone())


tampering("page_size", "the pages have another size", verify=verified(), make=of_other_pages)
tampering("order_of_rows", "the rows of a table have another order", verify=verified(),
          make=["CREATE TEMP TABLE old AS SELECT * FROM people ORDER BY who DESC", "DELETE FROM people",
                "INSERT INTO people SELECT * FROM old"])
tampering("user_version", "the number for applications is set", verify=verified(), make=["PRAGMA user_version = 7"])


def main():
    if len(sys.argv) < 2:
        sys.exit(__doc__)
    program, names = str(pathlib.Path(sys.argv[1]).resolve()), sys.argv[2:]
    expect("how many things are done", (71, 71), (len(TAMPERINGS), len({done.name for done in TAMPERINGS})))
    lanes = max(1, len(os.sched_getaffinity(0)) // 2)
    with tempfile.TemporaryDirectory() as room, concurrent.futures.ThreadPoolExecutor(lanes) as pool:
        kept = Kept(program, pathlib.Path(room))
        runs = [(done, pool.submit(judged, kept, done)) for done in TAMPERINGS if not names or done.name in names]
        kcr.judge([(done.name, done.what, lambda _, run=run: run.result()) for done, run in runs])


if __name__ == "__main__":
    main()
