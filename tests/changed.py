#!/usr/bin/env python3
"""Registers in which sqlite3 changed something: what the audit, a verification, a rebuild and the reports say of each.

    tests/changed.py PROGRAM [NAME ..]

Shown are, over kept streams of tests/files: that each of the six findings of the audit is found, by one changed cell
where one suffices; that a verification and a rebuild find a changed cell, a row more and a row less of each table, and
each kind of change among the accepted commands; what they say of other people in a stored reply; and that an invalid
row is refused (34) by whatever reads it, in a stream and in a report too, and told by its table and its key. With names
only the tests with these names run.

The last line is `N passed, M failed`, and the status is 0 where none failed.
"""
import sys

sys.dont_write_bytecode = True  # no files beside these

import itertools
import re

import kcr
from kcr import HERE, NOTHING_FOUND, call, change, copy, dated, expect, opened
from program import (FOREIGN, differed, filled, made_anew, made_older, officers_and_staff, refused, stream,
                     verified)

MOMENTS = 1_739_476_800  # 2025-02-13T20:00:00Z


def audited(program, file, finding):
    """Sees that the audit tells this finding, and that it changes nothing."""
    expect(f"audit of {file.name}", (f"finding: {finding}\n".encode(), b"", 1), call(program, "audit", "--file", file))
    expect(f"audit of {file.name} again", (f"finding: {finding}\n".encode(), b"", 1),
           call(program, "audit", "--file", file))


def findings(program, room):
    """One cell that sqlite3 changes in a register gives the finding that it is."""
    file = filled(program, room, "003")
    for number, (statement, finding) in enumerate([
            ("UPDATE seatings SET who = 'NOBO' WHERE ceremony = 63 AND step = 1 AND seat = 1", "seating 63 1"),
            ("UPDATE seatings SET seat = 3 WHERE ceremony = 63 AND step = 1 AND seat = 2", "seating 63 1"),
            ("UPDATE steps SET at = at - 3 WHERE ceremony = 63 AND step = 1", "seating 63 1"),
            ("UPDATE appointments SET until = since + 1 WHERE who = 'ABC'", "seating 63 1"),
            ("UPDATE items SET serial = 'NONE' WHERE code = 'HSM4'", "custody HSM4"),
            ("UPDATE bags SET spot = 'spent'", "custody HSM4"),
            ("UPDATE bags SET spot = 'box 9 EAST'", "bag BB51184288"),
            ("UPDATE boxes SET box = 7 WHERE box = 2", "bag BB51184288"),
            (f"UPDATE sheet SET at = at - 1 WHERE who = 'AB' AND at = {MOMENTS + 1}", "lone 63 2025-02-13T20:00:00Z"),
    ]):
        changed = copy(file, room / f"changed-{number}")
        change(changed, statement)
        audited(program, changed, finding)


def doubled_key(program, room):
    """A key in two rows, in a table that sqlite3 makes without a unique key, is in nobody's register."""
    file = filled(program, room, "003")
    keys = kcr.kept_tables(stream("003"))["keys"]
    key, _, command, reply = keys[20]
    refused(program, made_anew(file, room / "doubled", unsaid=" NOT NULL UNIQUE",
                               keys=[*keys, (key, 1_000, command, reply)]), FOREIGN)


def crowd(program, room):
    """A hundred and twenty-nine people in a room, since one of them is said to have gone later, are found."""
    people = [kcr.initials(number) for number in range(129)]
    sheet = b"/ceremonies/1/sheet"
    requests = [kcr.person(b"p%d" % number, who, b"N") for number, who in enumerate(people)]
    requests.append(kcr.request(b"POST", b"/ceremonies", b'{"key":"c","number":1,"facility":"EAST","day":"2025-02-13",'
                                b'"script":"step,activity,seats\\n1,a,CA\\n"}'))
    requests.append(kcr.request(b"POST", b"/ceremonies/1/opening", b'{"key":"o","at":"2025-02-13T20:00:00Z"}'))
    for turn, (way, who, second) in enumerate([(b"in", people[start:start + 32], 1) for start in range(0, 128, 32)]
                                              + [(b"out", people[:1], 10), (b"in", people[128:], 20)]):
        named = b",".join(b'"%s"' % one for one in who)
        requests.append(kcr.request(b"POST", sheet, b'{"key":"s%d","way":"%s","who":[%s],"at":"2025-02-13T20:00:%02dZ"}'
                                    % (turn, way, named, second)))
    file = room / "crowd"
    expect("the answers", (b"".join(kcr.accepted(number + 1) for number in range(len(requests))), b"", 0),
           call(program, "run", "--file", file, stream=b"".join(requests)))
    expect("audit", NOTHING_FOUND, call(program, "audit", "--file", file))
    change(file, f"UPDATE sheet SET at = at + 20 WHERE way = 0 AND at = {MOMENTS + 10}")
    audited(program, file, "crowd 1 2025-02-13T20:00:20Z")


# One change of each table, which a verification finds: a cell, and a row more. `(table, cells, row)`
CHANGES = [
    ("people", "name = 'Ann Abe1' WHERE who = 'AC'", "'AD', 'Ann Abel'"),
    ("trainings", "until = 20454 WHERE who = 'BA' AND role = 'CA' AND until = 20453", "'AC', 'CA', 20089, 20453"),
    ("withdrawals", "day = day + 1", "'AC', 'SSC2', 20089, 20452, 20300"),
    ("appointments", "until = 20136 WHERE who = 'EE'", "'CO-WEST-7', 20089, 'AC', NULL"),
    ("boxes", "place = 'CO-EAST-3' WHERE box = 3", "'WEST', 1, 'CO-WEST-1'"),
    ("safes", "state = 1 WHERE facility = 'EAST' AND safe = 1", None),
    ("bags", "spot = 'table WEST' WHERE serial = 'BB51184288'", "'BB51184289', 'spent'"),
    ("items", "facility = 'EAST' WHERE code = 'LAPTOP1'", "'LAPTOP2', 'WEST', NULL"),
    ("ceremonies", "day = day - 1", "62, 'WEST', 20132, 0, NULL, NULL"),
    ("marks", "at = at + 1", "62, 1739477121"),
    ("steps", "activity = '#2'", "61, 2, '#2', 'CA', 0, NULL"),
    ("seatings", "who = 'EE' WHERE seat = 2", "61, 1, 3, 'AA'"),
    ("sheet", "at = at - 1 WHERE who = 'ZZ' AND at = 1739477122", "'AC', 1739477200, 61, 1"),
    ("stays", "until = until - 1 WHERE who = 'ZZ' AND until = 1739477122", "'AC', 1739477200, 61, NULL"),
    ("exceptions", "text = 'Nobody fitted' WHERE exception = 1", "61, 3, 'One more', 1739476926, NULL"),
]


def quoted_rows(file, table, where="1", columns=None):
    """The rows of a table in the order of its key, which its first columns are, as sqlite3 prints them in its mode
    `quote`, with dates: all that pass a test, or of each its first columns."""
    with opened(file) as database:
        names = [f'"{name}"' for _, name, *_ in database.execute(f"PRAGMA table_info({table})")]
        shown = ", ".join(f"quote({name})" for name in names[:columns])
        rows = database.execute(f"SELECT {shown} FROM {table} WHERE {where} ORDER BY {', '.join(names)}").fetchall()
        return [",".join(dated(table, place, text) for place, text in enumerate(row)) for row in rows]


def row_line(table, expected, found):
    """The line of the first row in which a table of two files differs."""
    rows = itertools.zip_longest(quoted_rows(expected, table), quoted_rows(found, table), fillvalue="none")
    one, other = next((one, other) for one, other in rows if one != other)
    return f"\nrow: expected {one}; found {other}"


def differences(program, room):
    """A cell that sqlite3 changes in any table, a row that it adds or takes out, is found: the table is named, and the
    first row that differs is told as it should be and as it is."""
    file = filled(program, room, "072")
    for table, cells, row in CHANGES:
        statements = [f"UPDATE {table} SET {cells}",
                      f"DELETE FROM {table} WHERE rowid = (SELECT max(rowid) FROM {table})"]
        if row is not None:
            statements.append(f"INSERT INTO {table} VALUES ({row})")
        for number, statement in enumerate(statements):
            changed = copy(file, room / f"{table}-{number}")
            change(changed, statement)
            differed(program, changed, f"table {table}{row_line(table, file, changed)}")


def command_line(file, finding, expected=None):
    """The second line of a finding about an accepted command: what is expected, and what the file has, in one line."""
    kind, number = finding.split()
    with opened(file) as database:
        rows = database.execute("SELECT accepted, command, reply FROM keys ORDER BY accepted").fetchall()
    found, expected = {"number": lambda: (rows[int(number) - 1][0], number),
                       "command": lambda: (dict(row[:2] for row in rows)[int(number)], "a command"),
                       }.get(kind, lambda: (dict(row[::2] for row in rows)[int(number)], expected))()
    return f"\n{kind}: expected {expected}; found {re.sub('[^ -~]', ' ', str(found))}"


def kept_commands(finding, last):
    """How many commands a rebuilt register has after a finding: those before the named one, and this one too if its
    reply differs."""
    kind, name = finding.split()
    if kind == "table":
        return last - 1
    return int(name) if kind == "reply" else int(name) - 1


def changed_commands(program, room):
    """What sqlite3 changes among the accepted commands is found, and the command named."""
    file = filled(program, room, "072")
    last = len(kcr.kept_tables(stream("072"))["keys"])
    taken = '{"number":13,"refusal":"taken"}'
    for number, (statement, finding, *expected) in enumerate([
            ("DELETE FROM keys WHERE accepted = 7", "number 7"),
            ("UPDATE keys SET accepted = 1000 WHERE accepted = 7", "number 7"),
            ("UPDATE keys SET accepted = 4000000000 WHERE accepted = 7", "number 7"),
            ("UPDATE keys SET command = '/people' || char(10) || 'aa' || char(10) || 'A' WHERE accepted = 1",
             "command 1"),
            ("UPDATE keys SET command = 'x' WHERE accepted = 13", "command 13"),
            ("UPDATE keys SET command = '' WHERE accepted = 13", "command 13"),
            ("UPDATE keys SET command = command || char(10) WHERE accepted = 13", "command 13"),
            ("UPDATE keys SET command = replace(command, '/ceremonies/', '/rooms/') WHERE accepted = 16", "command 16"),
            ("UPDATE keys SET reply = '{\"accepted\":14}' WHERE accepted = 13", "reply 13", '{"accepted":13}'),
            ("UPDATE keys SET command = '/people' || char(10) || 'AA' || char(10) || 'Ann Abel' WHERE accepted = 13",
             "refused 13", taken),
            ("UPDATE keys SET command = '/people' || char(10) || 'AC' || char(10) || 'Ann Abel' WHERE accepted = 13",
             "refused 27", taken),
            (f"INSERT INTO keys VALUES ('another', {last + 1}, 'x', '{{}}')", f"command {last + 1}"),
            (f"DELETE FROM keys WHERE accepted = {last}", "table sheet"),
    ]):
        changed = copy(file, room / f"changed-{number}")
        change(changed, statement)
        fresh = room / f"fresh-{number}"
        output, *end = call(program, "rebuild", "--file", changed, "--into", fresh)
        line = (row_line(finding.split()[1], fresh, changed) if finding.startswith("table")
                else command_line(changed, finding, *expected))
        expect("rebuild", (f"finding: {finding}{line}\n".encode(), b"", 1), (output, *end))
        differed(program, changed, finding + line)
        verified(program, fresh, kept_commands(finding, last))


def other_people(program, room):
    """If a stored reply names other people, the line ends with whether they fill the seats of the command. It does not
    if the reply names nobody or the same people, or if the command has no seats."""
    requests, file = officers_and_staff(), room / "register"
    absent = [kcr.person(b"pGG", b"GG", b"N"),
              kcr.post(b"/people/GG/roles", b"rGG", b'"role":"CA","from":"2025-01-01","until":"2025-12-31"')]
    call(program, "run", "--file", file, stream=b"".join([*requests[:-2], *absent, *requests[-2:]]))
    signed = '{"accepted":%d,"seating":[%s],"step":1}'
    passed = '{"accepted":%d,"exception":1,"seating":[%s],"step":2}'
    for turn, (form, number, first, people, word) in enumerate([
            (signed, 18, '"EA"', '"EE"', "; a seating"),
            (signed, 18, '"EA"', '"AA"', "; no seating"),  # no officer
            (signed, 18, '"EA"', '"ZZ"', "; no seating"),  # nobody
            (signed, 18, '"EA"', '"EA","EB"', "; no seating"),
            (signed, 18, '"EA"', "", ""),
            (signed, 18, '"EA"', '"ea"', ""),  # no initials
            (signed, 18, '"EA"', '"EA" ', ""),
            (passed, 19, '"AA","BB"', '"BB","AA"', "; a seating"),
            (passed, 19, '"AA","BB"', '"AA","AA"', "; no seating"),  # one person in two seats
            (passed, 19, '"AA","BB"', '"GG","BB"', "; no seating"),  # trained, but not in the room
            (passed, 19, '"AA","BB"', '"AA"', "; no seating"),
            ('{"accepted":%d%s}', 17, "", ',"seating":["AA","BB"]', ""),  # a training
    ]):
        changed, fresh = copy(file, room / f"changed-{turn}"), room / f"fresh-{turn}"
        expected, found = form % (number, first), form % (number, people)
        change(changed, f"UPDATE keys SET reply = '{found}' WHERE accepted = {number}")
        told = f"reply {number}\nreply: expected {expected}; found {found}{word}"
        differed(program, changed, told)
        expect("rebuild", (f"finding: {told}\n".encode(), b"", 1),
               call(program, "rebuild", "--file", changed, "--into", fresh))
        verified(program, fresh, number)


# how many of the first columns of a table are its key
KEYS = {"people": 1, "trainings": 4, "withdrawals": 4, "appointments": 2, "boxes": 2, "safes": 2, "bags": 1, "items": 1,
        "ceremonies": 1, "marks": 1, "steps": 2, "seatings": 3, "sheet": 2, "stays": 2, "exceptions": 2, "keys": 1}


def invalid_row(file, table, where):
    """The lines of a refusal by an invalid row: the second has the table, and the key of the first row that passes a
    test. Only days and moments of the years 2000 to 2099 have dates."""
    key = re.sub(r" \((?!20)[^)]*\)", "", quoted_rows(file, table, where, KEYS[table])[0])
    return f"refused: 34 disk\ninvalid: {table} {key}\n".encode()


INVALID = [  # what is set in a table, and which rows are invalid then
    ("people", f"name = '{'x' * 121}' WHERE who = 'FIN'", "who = 'FIN'"),
    ("people", "name = 'a' || char(10) WHERE who = 'FIN'", "who = 'FIN'"),
    ("people", "who = 'fin' WHERE who = 'FIN'", "who = 'fin'"),
    ("trainings", "until = 47482 WHERE who = 'FIN'", "who = 'FIN'"),
    ("appointments", "place = 'CO-EAST-8' WHERE place = 'CO-EAST-4'", "place = 'CO-EAST-8'"),
    ("safes", "state = 2 WHERE facility = 'WEST'", "facility = 'WEST'"),
    ("bags", "spot = 'shelf'", "1"),
    ("items", "facility = 'EAST' WHERE code = 'HSM4'", "code = 'HSM4'"),
    ("items", "serial = NULL WHERE code = 'HSM4'", "code = 'HSM4'"),
    ("ceremonies", "state = 3 WHERE number = 61", "number = 61"),
    ("ceremonies", "number = 70000 WHERE number = 61", "number = 70000"),
    ("marks", "at = -1 WHERE ceremony = 61", "ceremony = 61"),
    ("marks", "at = 946684799 WHERE ceremony = 61", "ceremony = 61"),
    ("steps", "seats = 'CO;CO' WHERE ceremony = 61 AND step = 1", "ceremony = 61 AND step = 1"),
    ("steps", "step = 5000 WHERE ceremony = 61 AND step = 1", "step = 5000"),
    ("seatings", "seat = 17 WHERE ceremony = 63 AND step = 1 AND seat = 2", "seat = 17"),
    ("boxes", "place = 'CO-WEST-3' WHERE facility = 'EAST'", "facility = 'EAST'"),
    ("sheet", "way = 2 WHERE who = 'FIN'", "who = 'FIN'"),
    ("stays", "until = 5 WHERE who = 'FIN'", "who = 'FIN'"),
    ("keys", "key = 'a b' WHERE accepted = 1", "accepted = 1"),
    ("keys", "accepted = 0 WHERE accepted = 7", "accepted = 0"),
]


def told_as_invalid(program, room, changed, what, lines):
    """The audit, a verification and a rebuild tell an invalid row, if lines are explained."""
    for words in (["audit"], ["verify"], ["rebuild", "--into", room / "fresh"]):
        expect(f"{words[0]}: {what}", (b"", lines, 1), call(program, *words, "--file", changed))
        expect(f"{words[0]} in short: {what}", (b"", b"refused: 34 disk\n", 1),
               call(program, *words, "--file", changed, explain=False))


def rows_of_no_register(program, room):
    """An invalid row is refused by the audit, a verification and a rebuild as the disk's fault (34), and a second line
    has its table and its key."""
    file = filled(program, room, "003")
    for number, (table, cells, where) in enumerate(INVALID):
        changed = copy(file, room / f"changed-{number}")
        change(changed, f"UPDATE {table} SET {cells}")
        told_as_invalid(program, room, changed, f"{table} {cells}", invalid_row(changed, table, where))


def keys_of_invalid_rows(program, room):
    """Of several invalid rows the first is told, in the order of the file's tables; a key is one line of UTF-8. So is a
    row of an older file."""
    file = filled(program, room, "003")
    for number, (statements, key) in enumerate([
            (["UPDATE people SET who = 'F' || char(10) || 'N' WHERE who = 'FIN'"], "people 'F N'"),
            (["UPDATE people SET who = CAST(X'46FF4E' AS TEXT) WHERE who = 'FIN'"], "people 'F\ufffdN'"),
            (["UPDATE people SET who = 'O''N' WHERE who = 'FIN'"], "people 'O''N'"),
            (["UPDATE steps SET state = 3", "UPDATE people SET name = '' WHERE who = 'FIN'"], "people 'FIN'"),
            (["UPDATE stays SET until = 1 WHERE who = 'FIN'", "UPDATE marks SET at = 1 WHERE ceremony = 61"],
             "marks 61"),
    ]):
        changed = copy(file, room / f"changed-{number}")
        for statement in statements:
            change(changed, statement)
        told_as_invalid(program, room, changed, statements[0], f"refused: 34 disk\ninvalid: {key}\n".encode())
    for version in (1, 2):
        older = copy(file, room / f"older-{version}")
        made_older(older, version)
        change(older, "UPDATE steps SET seats = 'CO;CO' WHERE ceremony = 61 AND step = 1")
        expect(f"an older file, {version}", (b"", b"refused: 34 disk\ninvalid: steps 61,1\n", 1),
               call(program, "verify", "--file", older))


def broken_in_a_stream(program, room):
    """An invalid row breaks the register of a stream (34, then 35); it is whole when opened again."""
    file = filled(program, room, "003")
    change(file, f"UPDATE people SET name = '{'x' * 121}' WHERE who = 'FIN'")
    people, bag = kcr.request(b"GET", b"/people"), kcr.request(b"GET", b"/bags/BB51184288")
    shown = kcr.answer(b"200 OK", b'{"items":["HSM4"],"serial":"BB51184288","spot":"box 2 EAST"}')
    disk = kcr.answer(b"500 Internal Server Error", b'{"number":34,"refusal":"disk"}')
    broken = kcr.answer(b"500 Internal Server Error", b'{"number":35,"refusal":"broken"}')
    for _ in range(2):
        expect("the stream", (shown + disk + broken + broken, b"", 0),
               call(program, "run", "--file", file, stream=bag + people + bag + people))


def report_stops(program, room):
    """A report that meets such a row is refused, and a prefix of it was printed: of its steps, which are read sixteen
    at a time, those that were read before. The row is told."""
    file, script = room / "stops", ("print", "--ceremony", "61", "--file")
    call(program, "run", "--file", file, stream=kcr.case_file("reports-of-33-rows").read_bytes())
    text, faults, status = call(program, *script, file)
    expect("the whole report", (True, b"", 0), (b"\n33 open" in text, faults, status))
    for step, before in ((3, b"\n1 signed"), (16, b"\n1 signed"), (17, b"\n17 signed"), (33, b"\n33 open")):
        marred = copy(file, room / f"stops-{step}")
        change(marred, f"UPDATE steps SET seats = 'CO;CO' WHERE ceremony = 61 AND step = {step}")
        output, faults, status = call(program, *script, marred)
        expect(f"the end at step {step}", (b"refused: 34 disk\ninvalid: steps 61,%d\n" % step, 1), (faults, status))
        expect(f"what was printed before step {step}", text[:text.index(before) + 1], output)


TESTS = [findings, doubled_key, crowd, differences, changed_commands, other_people, rows_of_no_register,
         keys_of_invalid_rows, broken_in_a_stream, report_stops]


if __name__ == "__main__":
    kcr.judge_installed(TESTS, {}, __doc__)
