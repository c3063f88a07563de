#!/usr/bin/env python3
"""The program over a register's file: its subcommands, its lines and statuses, and the file as C's sqlite reads it.

    tests/program.py PROGRAM [NAME ..]

Shown are: for each of the twelve kept streams under tests/files that its requests get the kept answers over a file,
that the reports and the audit of the file are the kept texts, that sqlite3 finds it sound and with the kept rows and
schema, and that each accepted command sent again gets its answer again and changes nothing; that it makes no
difference whether the file is opened anew before each request; that registers of the versions 1 and 2, which sqlite3
makes, are migrated; that a register is taken as it is where its recorded people are not the first who fill the seats;
and what becomes of files that are no register, and of one that somebody else has open. What is said of a register in
which sqlite3 changed a cell is shown by `changed.py`. With names only the tests with these names run.

The twelve streams were taken from thirty. Together they have each kind of command accepted, each refusal, table, spot,
state and form of line of the thirty. A folder has the stream (`requests`), what it is answered (`answers`), what the
subcommands print afterwards (`print-N`, `attendance-N`, `custody`, `audit`) and the rows of the tables (`tables`).
They come from a program that is not this one, written from the rules alone.

The last line is `N passed, M failed`, and the status is 0 where none failed.
"""
import sys

sys.dont_write_bytecode = True  # no files beside these

import contextlib
import functools
import os
import pathlib
import re
import sqlite3
import threading

import kcr
from kcr import EMPTY_CUSTODY, HERE, NOTHING_FOUND, TABLES, Wrong, call, change, contents, copy, expect, opened

DISK = "the disk"  # two lines, with a step and the file's name
FOREIGN = (b"", b"open: foreign\n", 1)
VERSION = (b"", b"open: version\n", 1)
NAMELESS = b"note: no file is named\n"
EMPTY = {name: [] for name in TABLES} | {
    "safes": [("EAST", 1, 0), ("EAST", 2, 0), ("WEST", 1, 0), ("WEST", 2, 0)], "versions": [(3,)]}


def disk(step, file, word="open"):
    """What is told of a file that fails at a step."""
    return (b"", f"{word}: disk\n{step}: {file}\n".encode(), 1)


def noted(file, text="is not there"):
    """What stands on standard error of a register that is not there, or has no command."""
    return f"note: {file} {text}\n".encode()


def stream(name):
    """The folder of a kept stream."""
    return HERE / "files" / name


def filled(program, room, name):
    """A register's file that the requests of a kept stream have filled."""
    file = room / f"filled-{name}"
    told = call(program, "run", "--file", file, stream=kcr.kept(stream(name), "requests"))
    expect("the answers", (kcr.kept(stream(name), "answers"), b"", 0), told)
    return file


def reported(program, file, folder):
    """Sees that the reports and the audit of a file are the kept ones, and that it is the register of its commands."""
    for words, text in kcr.reports(folder):
        expect(" ".join(words), (text, b"", 0), call(program, *words, "--file", file))
    expect("audit", (kcr.kept(folder, "audit"), b"", 0), call(program, "audit", "--file", file))
    verified(program, file, len(kcr.kept_tables(folder)["keys"]))


def verified(program, file, commands):
    """Sees that a file is verified with its number of commands. One without commands gets a note instead."""
    whole = (f"verified: {commands} commands\n".encode(), b"", 0)
    empty = (b"", f"note: {file} has no command\n".encode(), 1)
    expect(f"verify {file.name}", whole if commands else empty, call(program, "verify", "--file", file))


def differed(program, file, finding):
    """Sees that a verification tells this difference, and that it changes nothing."""
    for time in ["first", "again"]:
        expect(f"verify {file.name}, {time}", (f"finding: {finding}\n".encode(), b"", 1),
               call(program, "verify", "--file", file))


def rebuilt(program, file, name, room):
    """Sees that a new register of a file's commands has the same rows, and that no file with content is touched."""
    fresh, tables = room / f"rebuilt-{name}", kcr.kept_tables(stream(name))
    expect("rebuild", (f"rebuilt: {len(tables['keys'])} commands\n".encode(), b"", 0),
           call(program, "rebuild", "--file", file, "--into", fresh))
    kcr.stored(fresh, tables)
    reported(program, fresh, stream(name))
    for into in (fresh, file):
        told = call(program, "rebuild", "--file", file, "--into", into)
        expect(f"into {into.name}", (b"", b"into: filled\n", 1), told)
        kcr.stored(into, tables)
    for text in (b"x", bytes(4_096)):
        (room / "held").write_bytes(text)
        told = call(program, "rebuild", "--file", file, "--into", room / "held")
        expect("into a file with bytes", ((b"", b"into: filled\n", 1), (text, None)), (told, contents(room / "held")))
    expect("no register", disk("opening", room), call(program, "rebuild", "--file", room, "--into", room / "none"))
    expect("a register that is not there", disk("missing", room / "gone"),
           call(program, "rebuild", "--file", room / "gone", "--into", room / "none"))
    expect("no new place", disk("opening", room, "into"), call(program, "rebuild", "--file", file, "--into", room))
    expect("new files", [], [name for name in ("none", "gone") if (room / name).exists()])


def repeated(program, file, folder):
    """Sees that each accepted command, sent again in its order, gets its answer again."""
    commands = kcr.commands(folder)
    told = call(program, "run", "--file", file, stream=b"".join(message for message, _ in commands))
    expect("the accepted commands again", (b"".join(answer for _, answer in commands), b"", 0), told)


def kept_stream(program, name, room):
    """A kept stream over a file: answers, reports, rows, and its accepted commands once more."""
    file, tables = filled(program, room, name), kcr.kept_tables(stream(name))
    reported(program, file, stream(name))
    kcr.stored(file, tables)
    repeated(program, file, stream(name))
    kcr.stored(file, tables)
    rebuilt(program, file, name, room)


def opened_anew(program, room):
    """A process of its own for each request of a stream gives the answers of the one stream."""
    folder, file = stream("009"), room / "register"
    for number, (message, answer) in enumerate(kcr.exchanges(folder)):
        expect(f"request {number}", (answer, b"", 0), call(program, "run", "--file", file, stream=message))
    kcr.stored(file, kcr.kept_tables(folder))
    reported(program, file, folder)


# Registers of older versions

NEWER = {1: ("stays", "withdrawals"), 2: ("withdrawals",)}


def made_older(file, version):
    """Makes a register's file one of an older version: sqlite3 drops the tables that this has not."""
    change(file, *(f"DROP TABLE {name}" for name in NEWER[version]), f"UPDATE versions SET number = {version}")


def made_anew(file, target, left_out=(), unsaid="", **rows):
    """Makes a database with the rows of a register's file from nothing, with a rollback journal: without the tables
    that are left out, without these words in the texts that make them, and with other rows in some."""
    with opened(file) as database:
        rows = kcr.rows_in(database) | rows
        texts = {text.split()[2]: text.replace(unsaid, "") for text in kcr.texts_in(database)}
    kept = {name: text for name, text in texts.items() if name not in left_out}
    change(target, *kept.values(), *((f"INSERT INTO {name} VALUES ({', '.join('?' * len(row))})", row)
                                     for name in kept for row in rows[name]))
    return target


def brought(program, file, folder):
    """Sees that a register of an older version becomes one of version 3 with the kept rows and reports."""
    before = dump(file)
    verified(program, file, len(kcr.kept_tables(folder)["keys"]))
    fresh = file.with_name(f"{file.name}-rebuilt")
    expect("rebuild", (f"rebuilt: {len(kcr.kept_tables(folder)['keys'])} commands\n".encode(), b"", 0),
           call(program, "rebuild", "--file", file, "--into", fresh))
    kcr.stored(fresh, kcr.kept_tables(folder))
    reported(program, file, folder)
    expect("not brought by that", before, dump(file))
    repeated(program, file, folder)
    kcr.stored(file, kcr.kept_tables(folder))
    reported(program, file, folder)
    repeated(program, file, folder)
    kcr.stored(file, kcr.kept_tables(folder))


def older_from_its_file(program, room):
    """A file that the program wrote, from which sqlite3 drops the tables of later versions, is brought to version 3."""
    file = filled(program, room, "009")
    for version in (1, 2):
        older = copy(file, room / f"version-{version}")
        made_older(older, version)
        brought(program, older, stream("009"))


def older_from_nothing(program, room):
    """A file of an older version that sqlite3 makes from nothing is brought to version 3."""
    file = filled(program, room, "030")
    for version in (1, 2):
        older = made_anew(file, room / f"version-{version}", NEWER[version], versions=[(version,)])
        brought(program, older, stream("030"))


def half_older(program, room):
    """A register of version 2 or 3 by its tables is refused for its version where its number is that of none, and as
    foreign where it is that of another of the three."""
    file = filled(program, room, "006")
    for number, told in ((0, VERSION), (4, VERSION), (9, VERSION), (1, FOREIGN), (2, FOREIGN)):
        other = copy(file, room / f"three-{number}")
        change(other, f"UPDATE versions SET number = {number}")
        refused(program, other, told)
    older = copy(file, room / "two")
    made_older(older, 2)
    for number, told in ((0, VERSION), (1, FOREIGN), (3, FOREIGN)):
        change(older, f"UPDATE versions SET number = {number}")
        refused(program, older, told)


def officers_and_staff():
    """Requests of a ceremony whose three steps each want a Crypto Officer, with three of them and two people of staff
    in the room: the first step is signed, and the second passed over, which are commands 16 and 17."""
    year = b'"from":"2025-01-01","until":"2025-12-31"'
    roles = [(b"AA", b"CA"), (b"AA", b"IW"), (b"BB", b"CA"), (b"BB", b"IW")]
    places = [(1, b"EA"), (2, b"EB"), (5, b"EE")]
    steps = b"".join(b"%d,Act,CO\\n" % step for step in (1, 2, 3))
    return [
        *(kcr.person(b"p" + who, who, b"N") for who in (b"AA", b"BB", b"EA", b"EB", b"EE")),
        *(kcr.post(b"/people/%s/roles" % who, b"r" + who + role, b'"role":"%s",%s' % (role, year))
          for who, role in roles),
        *(kcr.post(b"/custodians", b"c" + who, b'"place":"CO-EAST-%d","who":"%s","day":"2025-01-01"' % (number, who))
          for number, who in places),
        kcr.post(b"/ceremonies", b"plan", b'"number":61,"facility":"EAST","day":"2025-02-13",'
                                          b'"script":"step,activity,seats\\n%s"' % steps),
        kcr.post(b"/ceremonies/61/opening", b"open", b'"at":"2025-02-13T20:00:00Z"'),
        kcr.post(b"/ceremonies/61/sheet", b"come", b'"way":"in","who":["AA","BB","EA","EB","EE"],'
                                                   b'"at":"2025-02-13T20:05:00Z"'),
        kcr.post(b"/ceremonies/61/steps/1/signature", b"sign", b'"at":"2025-02-13T20:10:00Z"'),
        kcr.post(b"/ceremonies/61/exceptions", b"pass", b'"text":"Broken","pass":true,"at":"2025-02-13T20:12:00Z"'),
    ]


def seated(number, people, step, more=b""):
    """The answer to an accepted command that seats people."""
    named = b",".join(b'"%s"' % who for who in people)
    return kcr.answer(b"200 OK", b'{"accepted":%d,%s"seating":[%s],"step":%d}' % (number, more, named, step))


def other_seatings(program, room):
    """A register of any version whose recorded people fill the seats, but are not the first who do, is taken as it is:
    they are printed, audited and told again, and a new signature records the first ones. Only a verification finds
    it."""
    requests, file = officers_and_staff(), room / "first"
    first = [kcr.accepted(number + 1) for number in range(15)]
    first += [seated(16, [b"EA"], 1), seated(17, [b"AA", b"BB"], 2, b'"exception":1,')]
    expect("the answers", (b"".join(first), b"", 0), call(program, "run", "--file", file, stream=b"".join(requests)))
    other = [*first[:15], seated(16, [b"EE"], 1), seated(17, [b"BB", b"AA"], 2, b'"exception":1,')]
    printed = (b"Ceremony 61 EAST 2025-02-13 open\nOpened 2025-02-13T20:00:00Z\n"
               b"1 signed 2025-02-13T20:10:00Z Act\n  CO EE\n2 passed 2025-02-13T20:12:00Z Act\n  CA BB\n  IW AA\n")
    for version in (1, 2, 3):
        older = copy(file, room / f"version-{version}")
        change(older, "UPDATE seatings SET who = 'EE' WHERE step = 1",
               "UPDATE seatings SET who = CASE seat WHEN 1 THEN 'BB' ELSE 'AA' END WHERE step = 2",
               "UPDATE keys SET reply = replace(reply, '\"EA\"', '\"EE\"') WHERE accepted = 16",
               "UPDATE keys SET reply = replace(reply, '\"AA\",\"BB\"', '\"BB\",\"AA\"') WHERE accepted = 17")
        if version < 3:
            made_older(older, version)
        told = 'reply 16\nreply: expected {"accepted":16,"seating":["EA"],"step":1}; found ' \
               '{"accepted":16,"seating":["EE"],"step":1}; a seating'
        differed(program, older, told)
        fresh = room / f"rebuilt-{version}"
        expect("rebuild", (f"finding: {told}\n".encode(), b"", 1),
               call(program, "rebuild", "--file", older, "--into", fresh))
        verified(program, fresh, 16)
        output, *ended = call(program, "print", "--ceremony", "61", "--file", older)
        expect("print", (printed, [b"", 0]), (output[:len(printed)], ended))
        expect("audit", NOTHING_FOUND, call(program, "audit", "--file", older))
        expect("the commands again", (b"".join(other), b"", 0),
               call(program, "run", "--file", older, stream=b"".join(requests)))
        again = kcr.post(b"/ceremonies/61/steps/3/signature", b"last", b'"at":"2025-02-13T20:20:00Z"')
        expect("a new signature", (seated(18, [b"EA"], 3), b"", 0), call(program, "run", "--file", older, stream=again))
        expect("the audit after it", NOTHING_FOUND, call(program, "audit", "--file", older))
        with opened(older) as database:
            expect("the seatings", [(61, 1, 1, "EE"), (61, 2, 1, "BB"), (61, 2, 2, "AA"), (61, 3, 1, "EA")],
                   sorted(kcr.rows_in(database)["seatings"]))
            expect("the version", [(3,)], kcr.rows_in(database)["versions"])


# Files that are no register

def dump(file):
    """What a database holds, as sqlite3 tells it."""
    with opened(file) as database:
        return list(database.iterdump())


def refused(program, file, told, step="reading"):
    """Sees that three subcommands refuse a file with this line, and leave it and its log byte for byte as they were."""
    held, before = None if told == DISK else dump(file), contents(file)
    if told == DISK:
        told = disk(step, file)
    expect(f"custody of {file.name}", told, call(program, "custody", "--file", file))
    expect(f"verify of {file.name}", told, call(program, "verify", "--file", file))
    expect(f"run over {file.name}", told, call(program, "run", "--file", file, stream=kcr.request(b"GET", b"/people")))
    expect(f"the bytes of {file.name} and its log", before, contents(file))
    if held is not None:
        expect(f"what {file.name} holds", held, dump(file))


def no_file_yet(program, room):
    """An empty file and one that is not there become registers by `run`, and so does one at a path with blanks. For the
    reports and the audit they are empty registers, which they say; the other tasks refuse one that is not there.
    Nothing is made."""
    (room / "empty").touch()
    for name in ("empty", "missing", "a name with blanks, \u00e9 and \u540d.db"):
        note = noted(room / name, "has no command" if name == "empty" else "is not there")
        before = set(os.listdir(room))
        for _ in range(2):
            expect(name, (EMPTY_CUSTODY, note, 0), call(program, "custody", "--file", room / name))
            expect(f"audit of {name}", (NOTHING_FOUND[0], note, 0), call(program, "audit", "--file", room / name))
            expect(f"print of {name}", (b"", note + b"refused: 12 unknown ceremony 61\n", 1),
                   call(program, "print", "--ceremony", "61", "--file", room / name))
            refused = (b"", note, 1) if name == "empty" else disk("missing", room / name)
            for words in (["verify"], ["rebuild", "--into", room / "fresh"]):
                expect(f"{words[0]} of {name}", refused, call(program, *words, "--file", room / name))
            if name != "empty":
                expect("one line", (b"", b"open: disk\n", 1),
                       call(program, "verify", "--file", room / name, explain=False))
                for task in (["run"], ["serve", "--connections", "1", "--port", str(kcr.free_port())]):
                    expect(f"{task[0]} --existing", disk("missing", room / name),
                           call(program, *task, "--existing", "--file", room / name))
            expect("a refusal alone", (b"", b"refused: 12 unknown ceremony 61\n", 1),
                   call(program, "print", "--ceremony", "61", "--file", room / name, explain=False))
        expect("what is made", before, set(os.listdir(room)))
        expect(f"run of {name}", (b"", b"", 0), call(program, "run", "--file", room / name))
        kcr.stored(room / name, EMPTY)
        note = noted(room / name, "has no command")
        expect(f"{name}, made", (EMPTY_CUSTODY, note, 0), call(program, "custody", "--file", room / name))
        expect(f"verify of {name}, made", (b"", note, 1), call(program, "verify", "--file", room / name))


def only_read(program, room):
    """What only reads leaves every byte of a file and its log, also in a folder in which nothing may be written, and of
    a register of an older version."""
    file = filled(program, room, "009")
    older = copy(file, room / "older")
    made_older(older, 1)
    for one in (file, older):
        own = room / f"{one.name}-alone"
        own.mkdir()
        held = copy(one, own / "register")
        before = contents(held)
        for path in (*own.iterdir(), own):
            path.chmod(0o555 if path.is_dir() else 0o444)
        reported(program, held, stream("009"))
        expect("custody", (kcr.kept(stream("009"), "custody"), b"", 0), call(program, "custody", "--file", held))
        expect("rebuild", b"", call(program, "rebuild", "--file", held, "--into", room / f"fresh-{one.name}")[1])
        expect("the bytes of both files", before, contents(held))
        expect("what lies beside them", {"register"} | ({"register-wal"} if before[1] is not None else set()),
               set(os.listdir(own)))
        own.chmod(0o755)


def beside_a_writer(program, room):
    """Reports that are taken while commands come in are those of a register after one of its commands, and a
    verification finds nothing."""
    file, count = room / "register", 400
    people = [kcr.person(b"k%d" % number, kcr.initials(number), b"Ann Abel") for number in range(count)]
    call(program, "run", "--file", file, stream=people[0])
    with kcr.Server(program, 1, file) as server:
        writer = threading.Thread(target=kcr.exchange, args=(server.port, people))
        writer.start()
        seen = []
        while writer.is_alive() or not seen:
            output, faults, status = call(program, "verify", "--file", file)
            found = re.fullmatch(rb"verified: ([0-9]+) commands\n", output)
            expect("verify", (True, b"", 0), (found is not None, faults, status))
            seen.append(int(found[1]))
            expect("audit", NOTHING_FOUND, call(program, "audit", "--file", file))
        writer.join()
        expect("never fewer", sorted(seen), seen)
        verified(program, file, count)
        server.end()
    print(f"    {len(seen)} verifications, of {seen[0]} to {seen[-1]} commands")


def relative_and_linked(program, room):
    """A path is one from the working folder, and a link leads to the file that it names."""
    post = kcr.person(b"k1", b"AA", b"Ann Abel")
    expect("run", (kcr.accepted(1), b"", 0), call(program, "run", "--file", "here", stream=post, cwd=room))
    (room / "link").symlink_to("here")
    expect("again", (kcr.accepted(1), b"", 0), call(program, "run", "--file", room / "link", stream=post))
    kcr.stored(room / "here", EMPTY | {
        "people": [("AA", "Ann Abel")], "keys": [("k1", 1, "/people\nAA\nAnn Abel", '{"accepted":1}')]})
    expect("what lies there", {"here", "here-wal", "link"}, set(os.listdir(room)))


def no_database(program, room):
    """What is no database is refused as the disk's fault: a text, a damaged register, a folder, no folder, no name."""
    (room / "text").write_text("step,activity,seats\n1,Check bags,CA;IW\n" * 50)
    (room / "short").write_text("no register\n")
    (room / "zeros").write_bytes(bytes(8_192))
    whole = filled(program, room, "009")
    change(whole, "PRAGMA user_version = 0")  # all of it lies in the one file now
    taken = whole.read_bytes()
    (room / "half").write_bytes(taken[:len(taken) // 8_192 * 4_096])
    (room / "cut").write_bytes(taken[:-1_000])
    (room / "header").write_bytes(b"sQLite format 3" + taken[15:])
    (room / "page").write_bytes(taken[:4_096] + b"\xff" * 4_096 + taken[8_192:])
    for name in ("text", "short", "zeros", "half", "cut", "header", "page"):
        refused(program, room / name, DISK)
    (room / "folder").mkdir()
    for path in (room / "folder", "", ":memory:"):
        for words in (["custody"], ["run"]):
            told = call(program, *words, "--file", path, cwd=room)
            expect(f"{words[0]} of {path!s:.80}", disk("opening", path), told)
    nowhere = room / "no folder" / "register"
    expect("custody of no folder", (EMPTY_CUSTODY, noted(nowhere), 0), call(program, "custody", "--file", nowhere))
    expect("run of no folder", disk("opening", nowhere), call(program, "run", "--file", nowhere))
    os.link(whole, room / "second")
    for words in (["custody"], ["run"]):
        expect(f"{words[0]} of two names", disk("opening", whole), call(program, *words, "--file", whole))
    expect("what is made", ["folder"], [name for name in ("folder", "no folder", ":memory:") if (room / name).exists()])
    expect("the folder", [], os.listdir(room / "folder"))


# One number alone, in a table that is read whatever else there is
NUMBER = "CREATE TABLE versions (number INT)"


def other_databases(program, room):
    """A database of somebody else is refused for its version where its table of versions, of the one column `number`,
    has exactly one row, with a whole number that is none of 1, 2 and 3; and as foreign where it is not so."""
    others = [
        ("no table of versions", FOREIGN, ["CREATE TABLE t (a INT, b TEXT)", "INSERT INTO t VALUES (1, 'x')"]),
        ("a view alone", FOREIGN, ["CREATE VIEW people AS SELECT 1 AS who"]),
        ("some of the tables", FOREIGN, kcr.schema()[:5]),
        ("another column", FOREIGN, ["CREATE TABLE versions (other INT)", "INSERT INTO versions VALUES (9)"]),
        ("two columns", FOREIGN, ["CREATE TABLE versions (number INT, name TEXT)",
                                  "INSERT INTO versions VALUES (9, 'x')"]),
        ("no row", FOREIGN, [NUMBER]),
        ("two rows", FOREIGN, [NUMBER, "INSERT INTO versions VALUES (9), (10)"]),
        ("NULL", FOREIGN, [NUMBER, "INSERT INTO versions VALUES (NULL)"]),
        ("a text", FOREIGN, ["CREATE TABLE versions (number TEXT)", "INSERT INTO versions VALUES ('9')"]),
        ("a real number", FOREIGN, ["CREATE TABLE versions (number REAL)", "INSERT INTO versions VALUES (9)"]),
        ("past 64 bits", FOREIGN, [NUMBER, "INSERT INTO versions VALUES (9223372036854775808)"]),
        ("another version", VERSION, [NUMBER, "INSERT INTO versions VALUES (9)"]),
        ("more beside it", VERSION, ["CREATE TABLE t (a INT)", "CREATE VIEW v AS SELECT a FROM t", NUMBER,
                                     "CREATE INDEX i ON t (a) WHERE a > 1", "INSERT INTO versions VALUES (9)"]),
        ("a row id", VERSION, ["CREATE TABLE versions (number INTEGER PRIMARY KEY)",
                               "INSERT INTO versions VALUES (9)"]),
    ]
    others += [(f"the number {number}", VERSION, [NUMBER, f"INSERT INTO versions VALUES ({number})"])
               for number in (-9223372036854775808, -1, 0, 4, 4294967295, 4294967296, 4294967299, 9223372036854775807)]
    others += [(f"nothing but the number {number}", FOREIGN, [NUMBER, f"INSERT INTO versions VALUES ({number})"])
               for number in (1, 2, 3)]
    for name, told, statements in others:
        change(room / name, *statements)
        refused(program, room / name, told)
    change(room / "wal", "CREATE TABLE t (a INT)")
    with contextlib.closing(sqlite3.connect(room / "wal")) as database:
        database.execute("PRAGMA journal_mode = wal")
    refused(program, room / "wal", FOREIGN)


def another_schema(program, room):
    """A register of any version that has a table, an index, a view or a trigger more, or a column or a key less, is
    refused as foreign, and for its version where its number is that of none."""
    file = filled(program, room, "006")
    changes = [
        ["CREATE TABLE more (a INT)"],
        ["CREATE INDEX more ON people (name)"],
        ["CREATE INDEX more ON people (name) WHERE name > 'A'"],
        ["CREATE INDEX more ON people (lower(name))"],
        ["CREATE VIEW more AS SELECT who FROM people"],
        ["CREATE TRIGGER more AFTER INSERT ON people BEGIN DELETE FROM people; END"],
        ["ALTER TABLE people ADD COLUMN more INT"],
        ["ALTER TABLE people DROP COLUMN name"],
        ["ALTER TABLE people RENAME COLUMN name TO word"],
        ["DROP TABLE people"],
        ["DROP TABLE people", kcr.schema()[0].replace("TEXT NOT NULL, PRIMARY", "TEXT, PRIMARY")],
        ["DROP TABLE people", kcr.schema()[0].replace(" STRICT", "")],
    ]
    for version in (1, 2, 3):
        own = copy(file, room / f"version-{version}")
        if version < 3:
            made_older(own, version)
        for place, statements in enumerate(changes):
            other = copy(own, room / f"version-{version}-{place}")
            change(other, *statements)
            refused(program, other, FOREIGN)
            change(other, "UPDATE versions SET number = 9")
            refused(program, other, VERSION)


def no_one_number(program, room):
    """A register's tables whose table of versions has no row, or two, are nobody's register."""
    file = filled(program, room, "006")
    for name, statement in (("none", "DELETE FROM versions"), ("two", "INSERT INTO versions VALUES (9)")):
        other = copy(file, room / name)
        change(other, statement)
        refused(program, other, FOREIGN)


def each_its_own(program, room):
    """Of two files each has its own register: what one is told the other does not know."""
    files = {name: room / name for name in ("006", "009")}
    for name, file in files.items():
        told = call(program, "run", "--file", file, stream=kcr.kept(stream(name), "requests"))
        expect(f"the answers of {name}", (kcr.kept(stream(name), "answers"), b"", 0), told)
    for name, file in files.items():
        kcr.stored(file, kcr.kept_tables(stream(name)))
        reported(program, file, stream(name))


# Two who have one file open

def held_by_serve(program, room):
    """A file that `serve` has open is refused to another process that writes, also to sqlite3, and told to those that
    only read; and nothing of it is changed."""
    file = filled(program, room, "006")
    with kcr.Server(program, 1, file) as server:
        before = contents(file)
        for words in (["run"], ["serve", "--connections", "1", "--port", str(kcr.free_port())]):
            expect(" ".join(words), disk("locking", file), call(program, *words, "--file", file))
        reported(program, file, stream("006"))
        with contextlib.closing(sqlite3.connect(file, timeout=0)) as database:
            try:
                raise Wrong(f"sqlite3 reads {database.execute('SELECT * FROM people').fetchall()}")
            except sqlite3.OperationalError as fault:
                expect("what sqlite3 says", "database is locked", str(fault))
        expect("the files", before, contents(file))
        commands = kcr.commands(stream("006"))
        expect("the accepted commands again", b"".join(answer for _, answer in commands),
               kcr.exchange(server.port, [message for message, _ in commands]))
        expect("the end of serve", (b"", b"", 0), server.end())
    kcr.stored(file, kcr.kept_tables(stream("006")))


def held_by_sqlite(program, room):
    """A file in which sqlite3 has a transaction is refused, and taken once that is done; of what is not committed yet
    no report tells."""
    file = filled(program, room, "006")
    with contextlib.closing(sqlite3.connect(file, isolation_level=None)) as database:
        database.execute("BEGIN IMMEDIATE")
        database.execute("DELETE FROM people")
        expect("run", disk("locking", file), call(program, "run", "--file", file))
        reported(program, file, stream("006"))
        database.execute("ROLLBACK")
    reported(program, file, stream("006"))


def hot_journal(program, room):
    """A file with a rollback journal that is to be played back is refused until sqlite3 has done so."""
    file = filled(program, room, "006")
    change(file, "PRAGMA user_version = 0")
    file.with_name(file.name + "-journal").write_bytes(bytes.fromhex("d9d505f920a163d7") + bytes(504))
    refused(program, file, DISK, "opening")


# Lines and statuses

def unknown_ceremony(program, room):
    """A report of a ceremony that was not planned is refused with a line and status 1, and nothing is printed."""
    file = filled(program, room, "009")
    told = (b"", b"refused: 12 unknown ceremony 4711\n", 1)
    for word in ("print", "attendance"):
        expect(f"{word} over a file", told, call(program, word, "--ceremony", "4711", "--file", file))
        expect(f"{word} over memory", (b"", NAMELESS + told[1], 1), call(program, word, "--ceremony", "4711"))
    reported(program, file, stream("009"))


def over_memory(program, room):
    """Without a file each subcommand is over an empty register, which the next one does not find."""
    post = kcr.person(b"k1", b"AA", b"Ann Abel")
    for _ in range(2):
        expect("run", (kcr.accepted(1), b"", 0), call(program, "run", stream=post))
        expect("custody", (EMPTY_CUSTODY, NAMELESS, 0), call(program, "custody"))
        expect("audit", (NOTHING_FOUND[0], NAMELESS, 0), call(program, "audit"))
        expect("verify", (b"", NAMELESS, 1), call(program, "verify"))
        expect("rebuild", (b"", NAMELESS, 1), call(program, "rebuild", "--into", room / "fresh"))
        expect("what is made", [], os.listdir(room))


def numbers_out_of_range(program, room):
    """A ceremony that is no number from 1 to 9,999, or none, is refused with status 2, and no file is made."""
    file = room / "register"
    for word in ("print", "attendance"):
        for number in ("0", "10000", "-1", "6.0", "x", ""):
            words = [word, f"--ceremony={number}", "--file", file]
            output, faults, status = call(program, *words)
            expect(f"{word} of {number!r}", (b"", True, 2), (output, faults != b"", status))
        output, faults, status = call(program, word, "--file", file)
        expect(f"{word} of none", (b"", True, 2), (output, faults != b"", status))
    expect("what is made", [], os.listdir(room))


def output_is_full(program, room):
    """A report that cannot be written is told with a line and status 1."""
    file = filled(program, room, "009")
    for words in (["custody"], ["audit"], ["print", "--ceremony", "62"], ["attendance", "--ceremony", "62"]):
        with open("/dev/full", "wb") as full:
            run = kcr.subprocess.run([program, *words, "--file", file], stdout=full, stderr=kcr.subprocess.PIPE,
                                     timeout=kcr.SECONDS)
        expect(" ".join(words), (b"fault: write\n", 1), (run.stderr, run.returncode))
    reported(program, file, stream("009"))


TESTS = [opened_anew, older_from_its_file, older_from_nothing, half_older, other_seatings, no_file_yet,
         only_read, beside_a_writer, relative_and_linked, no_database, other_databases, another_schema, no_one_number,
         each_its_own, held_by_serve, held_by_sqlite, hot_journal,
         unknown_ceremony, over_memory, numbers_out_of_range, output_is_full]


def main():
    if len(sys.argv) < 2:
        sys.exit(__doc__)
    program, names = str(pathlib.Path(sys.argv[1]).resolve()), sys.argv[2:]
    tests = [(folder.name, kept_stream.__doc__, functools.partial(kept_stream, program, folder.name))
             for folder in kcr.folders()]
    tests += [(test.__name__, test.__doc__, functools.partial(test, program)) for test in TESTS]
    kcr.judge([test for test in tests if not names or test[0] in names])


if __name__ == "__main__":
    main()
