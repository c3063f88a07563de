#!/usr/bin/env python3
"""What docs/OPERATING.md says of a machine, and the scripts and units of `packaging`, tried on stand-ins for one.

    tests/operating.py PROGRAM [NAME ..]

Shown are, for each script: its help; that it does its work, also while the register is served; and for each way in
which it fails that it ends with status 1 and a line, and leaves what was there. Among these are a file that is not
there, a damaged one, a changed row, a full disk, a call inside a script that fails, a proxy that answers HTML, and a
source that was restored. Of the units: that a lost file does not come back empty, and that each gives an alarm. Of the
page: that the rehearsal runs as printed on two machines, and each other block of commands on one; that the certificates
are made and the proxy refuses what the page says; and that its links have a place.

systemd, apt and users are stand-ins (`machine.py`, `systemctl.py`); curl, nginx, openssl and a disk of memory are real.
A test whose command is not installed is left out, and says so. With names only these tests run. The last line is
`N passed, M failed`, and the status is 0 where none failed.
"""
import sys

sys.dont_write_bytecode = True  # no files beside these

import contextlib
import http.server
import os
import re
import signal
import subprocess
import threading

import kcr
import machine
import proxy
from kcr import Wrong, expect
from machine import Machine, change_a_row, enter, installed, small_disk

SCRIPTS = machine.package.SCRIPTS
REGISTER = machine.REGISTER


def filled(program, file, *numbers):
    """A register's file with the commands of these numbers, in this order."""
    kcr.call(program, "run", "--file", file, stream=b"".join(map(enter, numbers)))
    expect("the commands", len(numbers), kcr.commands_in(file))
    return file


def only(folder, ending):
    """The only file of a folder, which has this ending."""
    expect(f"the files of {folder.name}", [ending], [path.suffix for path in folder.iterdir()])
    return next(folder.iterdir())


# Arguments

def helps(program, room):
    """Each script prints its help, and refuses wrong arguments with status 2; no file is made."""
    here = Machine(program, room / "here")
    before = sorted(room.rglob("*"))
    for name in SCRIPTS:
        text = here.well(room / "here/usr/bin" / name, "--help")
        expect(f"the help of {name}", f"usage: {name} ", text[:len(f"usage: {name} ")])
        expect(f"whether {name} says its statuses", True, "\nStatus: 0 " in text)
        for wrong in ((), ("--none", "a"), ("a", "b", "c")):
            if name != "kcr-check" or wrong:
                here.badly(2, f"usage: {name} ", room / "here/usr/bin" / name, *wrong)
    for wrong in (("ftp://localhost", "a"), ("", "a"), ("http://localhost", "")):
        here.badly(2, "usage: kcr-follow ", room / "here/usr/bin/kcr-follow", *wrong)
    for wrong in (("--room", "x"), ("--room",), ("--hours", "-1")):
        here.badly(2, "usage: kcr-check ", room / "here/usr/bin/kcr-check", *wrong)
    expect("the files", before, sorted(room.rglob("*")))


# The first register, and a lost one

def made_once(program, room):
    """kcr-new makes a register and its mark where none was ever, and leaves what is there. A register that was lost is
    not made again: not where the mark is left, and not where the log is."""
    with installed(program, room / "here", started=False) as here:
        mark = here.file.with_name(f"{REGISTER}.made")
        expect("the first installation made", (True, True, 0), (here.file.exists(), mark.exists(), here.commands()))
        expect("the modes", [0o600, 0o600], [path.stat().st_mode & 0o777 for path in (here.file, mark)])
        filled(program, here.file, 1)
        for _ in range(2):
            here.well("kcr-new", here.file)
            expect("the commands", 1, here.commands())
            mark.unlink(missing_ok=True)
        here.well("kcr-new", here.file)
        here.file.unlink()
        here.badly(1, "was lost", "kcr-new", here.file)
        mark.unlink()
        kcr.log_of(here.file).touch()
        here.badly(1, "was lost", "kcr-new", here.file)
        expect("whether a file was made", False, here.file.exists())
        here.badly(1, "could not be made", "kcr-new", room / "none" / REGISTER)
        here.well("sh", here.root / "postinst", "configure", "1.0.0")
        expect("whether an upgrade made a file", False, here.file.exists())


def lost_file(program, room):
    """A register's file that is removed while it is served does not come back empty: the unit fails, gives an alarm,
    and makes nothing. A restore brings it up again."""
    with installed(program, room / "here") as here:
        (room / "backups").mkdir()
        for number in (1, 2):
            expect("a command", kcr.accepted(number), here.post(number))
        here.well("kcr-backup", room / "backups")
        here.well("systemctl", "is-active", "kcr")
        expect("a command", kcr.accepted(3), here.post(3))
        for file in (here.file, kcr.log_of(here.file)):
            file.unlink()
        expect("an answer", b"", here.post(4))
        here.wait(lambda: here.run("systemctl", "is-failed", "kcr")[0] == 0)
        expect("whether a file is there", (False, False), (here.file.exists(), kcr.log_of(here.file).exists()))
        journal = (here.root / "kept/kcr.service.journal").read_text()
        told = journal.replace("fault:", "|fault:").replace("open:", "|open:").split("|")[1:]
        tries = len(told) - 1
        expect(f"whether {tries} starts are 4, or 5 after more than a minute", True, tries in (4, 5))
        expect("what the unit wrote", [f"fault: file\nlost: {here.file}\n"]
               + [f"open: disk\nmissing: {here.file}\n"] * tries, told)
        expect("the alarm", "-p daemon.alert -t kcr kcr.service failed: look at journalctl -u kcr.service\n",
               (here.root / "alarms").read_text())
        here.badly(1, "is not there", "kcr-check")
        here.well("kcr-restore", only(room / "backups", ".db"))
        for number in (1, 2, 3):
            expect("a command again", kcr.accepted(number), here.post(number))


# Backups

def backed_up(program, room):
    """kcr-backup keeps each accepted command while the register is served. A file with a finding is kept under another
    name. After any other failure nothing is kept."""
    with installed(program, room / "here") as here:
        folder = room / "backups"
        here.badly(1, "there is no folder", "kcr-backup", folder)
        folder.mkdir()
        here.badly(1, "has no command", "kcr-backup", folder)
        expect("what is kept", [], list(folder.iterdir()))
        for number in (1, 2):
            expect("a command", kcr.accepted(number), here.post(number))
            expect("the last line", True, here.well("kcr-backup", folder).endswith(f".db: {number} commands\n"))
        expect("what each has", [1, 2], [kcr.commands_in(file) for file in sorted(folder.iterdir())])
        here.well("systemctl", "stop", "kcr")
        change_a_row(here.file)
        here.badly(1, "finding: table people", "kcr-backup", folder)
        expect("the endings", [".db", ".db", ".unverified"], [file.suffix for file in sorted(folder.iterdir())])
        here.badly(1, "could not be packed", "kcr-backup", "--file", room / "none.db", folder)
        here.file.write_bytes(b"no database\n" * 1_000)
        here.badly(1, "could not be packed", "kcr-backup", folder)
        expect("how many files", 3, len(list(folder.iterdir())))


def saved(program, room):
    """kcr-save keeps each accepted command as text, which begins with the earlier one and makes the register again.
    Where the rules make other rows of the commands, nothing is kept."""
    with installed(program, room / "here") as here:
        folder = room / "texts"
        here.badly(1, "there is no folder", "kcr-save", folder)
        folder.mkdir()
        for number in (1, 2):
            expect("a command", kcr.accepted(number), here.post(number))
            expect("the last line", True, here.well("kcr-save", folder).endswith(f".http: {number} commands\n"))
        one, other = (file.read_bytes() for file in sorted(folder.iterdir()))
        expect("the beginning of the later", one, other[:len(one)])
        kcr.call(program, "run", "--file", room / "again.db", stream=other)
        expect("the rows", kcr.rows_of(here.file), kcr.rows_of(room / "again.db"))
        here.well("systemctl", "stop", "kcr")
        change_a_row(here.file)
        here.badly(1, "finding: table people", "kcr-save", folder)
        here.badly(1, "could not be packed", "kcr-save", "--file", room / "none.db", folder)
        expect("how many files", 2, len(list(folder.iterdir())))


def full_disk(program, room):
    """On a full disk a backup, a text and a restore end with status 1; nothing is kept, the register is served on as it
    was, and a later try with room does it."""
    with small_disk(room / "var", 16) as disk:
        if disk is None:
            return kcr.leave_out("disk of memory", "full_disk")
        with installed(program, room / "var") as here:
            for number in (1, 2):
                expect("a command", kcr.accepted(number), here.post(number))
            folder = here.root / "mnt"
            here.well("kcr-backup", here.root / "var/backups")
            backup = only(here.root / "var/backups", ".db")
            machine.fill(disk, 65_536)
            before = here.files()
            for words in (("kcr-backup", folder), ("kcr-save", folder), ("kcr-restore", backup)):
                here.badly(1, "could not be packed", *words)
            expect("what is kept", [], list(folder.iterdir()))
            expect("the register", before, here.files())
            expect("a command again", kcr.accepted(2), here.post(2))
            here.badly(1, "only 0 MB of room", "kcr-check", "--room", 1)
            (disk / "filler").unlink()
            here.well("kcr-restore", backup)
            expect("a new command", kcr.accepted(3), here.post(3))


def no_room(program, room):
    """A command for which a full disk has no room is told so, and the journal says why the register stopped. With room
    it is served again and takes that command, after all that were accepted."""
    with small_disk(room / "var", 16) as disk:
        if disk is None:
            return kcr.leave_out("disk of memory", "no_room")
        with installed(program, room / "var") as here:
            machine.fill(disk, 0)
            number = next(number for number in range(1, 1000) if here.post(number) != kcr.accepted(number))
            here.wait(lambda: "refused: 35 broken\nbroken: no room\n" in here.well("journalctl", "-u", "kcr", "-n", "20"))
            (disk / "filler").unlink()
            here.run("systemctl", "reset-failed", "kcr")
            here.well("systemctl", "start", "kcr")
            expect("the command again", kcr.accepted(number), here.post(number))
            expect("the commands", number, here.commands())


# Restore

def restored(program, room):
    """kcr-restore serves what a backup has, be it a file or a text, and a second run too; what was there is kept. It
    works on a machine that has no register yet, and where a run was killed in the middle."""
    backup = filled(program, room / "backup.db", 1, 2)
    text = room / "backup.http"
    text.write_bytes(kcr.call(program, "export", "--file", backup)[0])
    with installed(program, room / "here", started=False) as here:
        for given in (backup, text, backup):
            told = here.well("kcr-restore", given)
            for line in ("clients: send again every command after number 2\n", "standbys: make them anew",
                         f"{here.file}: 2 commands\n", f"what was there is in {here.file}.before-"):
                expect(f"whether {line!r} is in {told!r}", True, line in told)
            for number in (1, 2, 3):
                expect(f"command {number}", kcr.accepted(number), here.post(number))
        kept = sorted(here.file.parent.glob("register.db.before-*"))
        expect("what was there", [0, 3, 3], [kcr.commands_in(folder / REGISTER) for folder in kept])
        left = here.file.with_name("register.db.restore-abcdef")
        left.mkdir()
        here.well("systemctl", "stop", "kcr")
        here.file.unlink()  # as a run that was killed after its first step leaves it
        here.well("kcr-restore", backup)
        expect("what the killed run left", False, left.exists())
        expect("a command", kcr.accepted(3), here.post(3))


def not_restored(program, room):
    """What cannot be restored changes nothing, and the service goes on: a name that is not there, a damaged file, one
    with a finding, a text with a refused command, the register itself, a second run at once, a unit that does not
    stop."""
    good, changed = filled(program, room / "good.db", 1, 2), filled(program, room / "changed.db", 1, 2)
    change_a_row(changed)
    (room / "text.db").write_bytes(b"no database\n" * 1_000)
    (room / "twice.http").write_bytes(kcr.call(program, "export", "--file", good)[0] * 2)
    (room / "empty.db").touch()
    with installed(program, room / "here") as here:
        expect("a command", kcr.accepted(1), here.post(7))
        before = here.files()
        for given, why in (
                (room / "none.db", "there is no file"), (room, "there is no file"), (here.file, "the register itself"),
                (room / "text.db", "could not be packed"), (room / "empty.db", "could not be packed"),
                (changed, "finding: table people"), (room / "twice.http", "does not make the register again")):
            here.badly(1, (why, "Nothing was changed."), "kcr-restore", given)
            expect(f"the files after {given.name}", before, here.files())
        here.badly(1, "there is no folder", "kcr-restore", "--file", room / "none" / REGISTER, good)
        here.badly(1, "could not be stopped", "kcr-restore", "--service", "none", good)
        here.badly(1, "another kcr-restore", "flock", here.file.parent, "kcr-restore", good)
        expect("the files", before, here.files())
        expect("a command again", kcr.accepted(1), here.post(7))
        here.well("kcr-restore", "--unverified", changed)
        expect("a command of the changed register", kcr.accepted(2), here.post(2))


def not_up(program, room):
    """A restore after which the service does not stay up ends with status 1 and says so."""
    good = filled(program, room / "good.db", 1)
    with installed(program, room / "here") as here:
        unit = here.root / "usr/lib/systemd/system/kcr.service"
        unit.write_text(unit.read_text().replace("--connections 1000000", "--connections none"))
        here.badly(1, "restored, but kcr does not stay up", "kcr-restore", good)
        here.well("kcr-restore", "--service", "", good)


# Calls that fail

STAND_IN = '#!/bin/sh\ncase "${0##*/} $*" in $FAILS) exit 1 ;; esac\nPATH=${PATH#*:}\nexec "${0##*/}" "$@"\n'
UNCHANGED = "Nothing was changed."
BROKEN_OFF = (  # the script, the call in it that fails, and what is said; BACKUP, TEXT and FOLDER are given to it
    ("kcr-backup FOLDER", "mktemp *", "cannot be written"),
    ("kcr-backup FOLDER", "kcr verify *", "could not be verified"),
    ("kcr-save FOLDER", "mktemp *", "cannot be written"),
    ("kcr-save FOLDER", "kcr export *", "could not be exported"),
    ("kcr-save FOLDER", "kcr run *", "could not be tried"),
    ("kcr-save FOLDER", "kcr export *again.db", "could not be tried"),
    ("kcr-save FOLDER", "cmp *", "does not make the register again"),
    ("kcr-restore BACKUP", "mktemp *", f"cannot be written. {UNCHANGED}"),
    ("kcr-restore TEXT", "kcr run *", f"could not be entered. {UNCHANGED}"),
    ("kcr-restore TEXT", "kcr export *", f"could not be compared. {UNCHANGED}"),
    ("kcr-restore BACKUP", "kcr verify *", f"is not verified. {UNCHANGED}"),
    ("kcr-restore BACKUP", "systemctl stop *", f"could not be stopped. {UNCHANGED}"),
    ("kcr-follow http://127.0.0.1:1 BACKUP", "kcr export *", "cannot be read"),
    ("kcr-follow http://127.0.0.1:1 BACKUP", "mktemp *", "cannot be written"),
)
IN_THE_MIDDLE = (  # the call of a restore that fails after the stop, and what is said
    ("mv *.before-*", "could not be moved to"), ("mv *.restore-*/register.db *", "run it again"),
    ("systemctl start *", "restored, but kcr does not start"))


def broken_off(program, room):
    """A call inside a script that fails ends it with status 1 and a line, and what is there stays. A restore of which
    a move or the start failed is done by a second run."""
    with installed(program, room / "here") as here:
        for number in (1, 2):
            expect("a command", kcr.accepted(number), here.post(number))
        given = {name: room / name for name in ("BACKUP", "TEXT", "FOLDER")}
        given["FOLDER"].mkdir()
        given["TEXT"].write_bytes(kcr.call(program, "export", "--file", filled(program, given["BACKUP"], 1))[0])
        here.well("kcr-new", given["BACKUP"])
        for name in ("cmp", "kcr", "mktemp", "mv", "systemctl"):
            here.script(f"stand-ins/{name}", STAND_IN)
        path = f"PATH={here.root / 'stand-ins'}:{here.env['PATH']}"
        before = here.files()
        for script, call, why in BROKEN_OFF:
            words = (given.get(word, word) for word in script.split())
            here.badly(1, why, "env", f"FAILS={call}", path, *words)
            expect(f"what is kept after {script} without {call}", [], list(given["FOLDER"].iterdir()))
            expect(f"the register after {script} without {call}", before, here.files())
        for call, why in IN_THE_MIDDLE:
            here.badly(1, why, "env", f"FAILS={call}", path, "kcr-restore", given["BACKUP"])
            here.well("kcr-restore", given["BACKUP"])
            expect("a command again", kcr.accepted(1), here.post(1))
        here.badly(1, "could not be made", "kcr-new", "/proc/version")


def alarmed(program, room):
    """A backup, a check and a copy that fail give an alarm each, as the register's unit does."""
    with installed(program, room / "here", started=False) as here:
        settings = here.root / "etc/default/kcr"
        settings.write_text(re.sub('SOURCE=.*', f'SOURCE="http://127.0.0.1:{kcr.free_port()}"', settings.read_text()))
        for name, why in {"backup": "there is no folder", "check": "does not answer", "follow": "be reached"}.items():
            unit = f"kcr-{name}.service"
            expect(f"the status of a start of {unit}", 1, here.run("systemctl", "start", unit)[0])
            expect(f"whether {unit} says why", True, why in here.well("journalctl", "-u", f"kcr-{name}", "-n", "9"))
            expect("the alarm", f"-p daemon.alert -t kcr {unit} failed: look at journalctl -u {unit}",
                   (here.root / "alarms").read_text().splitlines()[-1])


# A copy

@contextlib.contextmanager
def source(program, file):
    """The address of a register that is served."""
    with kcr.Server(program, 1_000, file) as server:
        yield f"http://127.0.0.1:{server.port}"


def followed(program, room):
    """kcr-follow makes a copy with the register's commands, also where it has none, says by how many it was behind, and
    copies those that come later. The copy has the register's rows."""
    with installed(program, room / "here", started=False) as here:
        with source(program, filled(program, room / "empty.db")) as url:
            told = here.well("kcr-follow", url, room / "none.db")
        expect("the last line", f"{room / 'none.db'}: 0 commands, was behind by 0\n", told)
        copy, file = room / "copy.db", filled(program, room / "source.db", 1, 2, 3)
        for numbers, behind in (((), 3), ((), 0), ((4,), 1), ((5, 6), 2)):
            if numbers:
                kcr.call(program, "run", "--file", file, stream=b"".join(map(enter, numbers)))
            with source(program, file) as url:
                told = here.well("kcr-follow", f"{url}/", copy)
            expect("the last line", f"{copy}: {kcr.commands_in(file)} commands, was behind by {behind}\n", told)
        expect("the rows of the copy", kcr.rows_of(file), kcr.rows_of(copy))
        expect("what is left of the work", [], list(room.glob("copy.db.follow-*")))


def another_history(program, room):
    """A source that lost commands, or has other ones, is found: kcr-follow says from where on, and the copy stays."""
    with installed(program, room / "here", started=False) as here:
        copy = filled(program, room / "copy.db", *range(1, 8))
        here.well("kcr-new", copy)
        before = kcr.contents(copy)
        for name, numbers, why in (
                ("shorter", (1, 2, 3, 4, 5), "has no command 6, and"), ("empty", (), "has no command 1, and"),
                ("one less", range(1, 7), "has no command 7, and"), ("other", (*range(1, 7), 8), "command 7 of"),
                ("longer", (1, 2, 8, *range(3, 8), 9), "command 3 of"),
                ("turned", (1, 2, 4, 3, 5, 6, 7), "command 3 of"), ("first", (2, 1, *range(3, 8)), "command 1 of")):
            file = room / f"{name}.db"
            kcr.call(program, "run", "--file", file, stream=b"".join(map(enter, numbers)))
            with source(program, file) as url:
                here.badly(1, ("another history: ", why, "Nothing was changed."), "kcr-follow", url, copy)
            expect(f"the copy after {name}", before, kcr.contents(copy))


OTHER = "something other than commands"
ANSWERS = {  # what a wrong source answers: status, media type, body, and what is said of it
    "html": (200, "text/html", b"<html><body>Please log in</body></html>\n", OTHER),
    "html as text": (200, "text/plain", b"<html>\n<body>\nPlease\nlog in\n</body>\n</html>", OTHER),
    "json": (200, "application/json", b'{"people":[]}', OTHER),
    "questions": (200, "text/plain", b"GET /people HTTP/1.1\r\nHost: l\r\n\r\n", OTHER),
    "half": (200, "text/plain", enter(1).rpartition(b",")[0], OTHER),
    "no page": (404, "text/html", b"<html>no such page</html>", "status 404"),
    "broken": (502, "text/html", b"<html>bad gateway</html>", "status 502"),
    "log-in": (302, "text/html", b"", "status 302"),
    "refusal": (500, "application/json", b'{"number":35,"refusal":"broken"}', "status 500"),
}


@contextlib.contextmanager
def answering(status, kind, body, length=None):
    """The address of a server that answers each request so; with a length its head promises that many bytes. A body
    may be a function of the path."""
    class Answer(http.server.BaseHTTPRequestHandler):
        """Answers."""

        def do_GET(self):
            """Sends the answer."""
            text = body(self.path) if callable(body) else body
            self.send_response(status)
            self.send_header("Content-Type", kind)
            self.send_header("Content-Length", str(len(text) if length is None else length))
            self.end_headers()
            self.wfile.write(text)

        def log_message(self, *_):
            """Writes nothing."""

    with http.server.ThreadingHTTPServer(("127.0.0.1", 0), Answer) as server:
        threading.Thread(target=server.serve_forever, daemon=True).start()
        try:
            yield f"http://127.0.0.1:{server.server_port}"
        finally:
            server.shutdown()


def many_answers(program, room):
    """kcr-follow copies more commands than one answer of the feed has, here 150, and each of them once."""
    file = filled(program, room / "source.db", *range(1, 231))
    texts = [kcr.request(b"POST", b"/people", body) for body in
             re.findall(rb"\{.*?\}", kcr.call(program, "export", "--file", file)[0])]

    def page(path):
        after = int(path.rpartition("/")[2])
        return b"".join(texts[after:after + 150])

    with installed(program, room / "here", started=False) as here, answering(200, "text/plain", page) as url:
        told = here.well("kcr-follow", url, room / "copy.db")
        expect("the last line", f"{room / 'copy.db'}: 230 commands, was behind by 230\n", told)
    expect("the rows of the copy", kcr.rows_of(file), kcr.rows_of(room / "copy.db"))


def long_commands(program, room):
    """kcr-follow goes on from a copy whose last commands are longer than one answer of the feed."""
    file, copy = room / "source.db", room / "copy.db"
    with installed(program, room / "here", started=False) as here:
        for numbers, count in ((range(1, 31), 30), ((31,), 1), ((), 0)):
            kcr.call(program, "run", "--file", file, stream=b"".join(map(kcr.long_plan, numbers)))
            with source(program, file) as url:
                told = here.well("kcr-follow", url, copy)
            expect("the last line", f"{copy}: {kcr.commands_in(file)} commands, was behind by {count}\n", told)
    expect("the rows of the copy", kcr.rows_of(file), kcr.rows_of(copy))


def no_source(program, room):
    """A source that cannot be reached, or answers something other than commands, ends kcr-follow with status 1; the
    copy stays. So does a copy that was lost, that another program has open, or that refuses a command."""
    with installed(program, room / "here", started=False) as here:
        copy = filled(program, room / "copy.db", 1)
        here.well("kcr-new", copy)
        before = kcr.contents(copy)
        here.badly(1, "cannot be reached", "kcr-follow", f"http://127.0.0.1:{kcr.free_port()}", copy)
        with answering(200, "text/plain", enter(1), 100_000) as url:
            here.badly(1, "cannot be reached", "kcr-follow", url, copy, "--max-time", 5)
        for name, (status, kind, body, why) in ANSWERS.items():
            with answering(status, kind, body) as url:
                here.badly(1, why, "kcr-follow", url, copy)
            expect(f"the copy after {name}", before, kcr.contents(copy))
        with answering(200, "text/plain", kcr.call(program, "export", "--file", copy)[0] * 2) as url:
            here.badly(1, "does not take the commands after 1", "kcr-follow", url, copy)
        more = filled(program, room / "more.db", 1, 2)
        with source(program, more) as url, source(program, copy):
            here.badly(1, "cannot take commands", "kcr-follow", url, copy)
        expect("the copy in the end", 1, kcr.commands_in(copy))
        copy.unlink()
        with source(program, more) as url:
            here.badly(1, "was lost", "kcr-follow", url, copy)
        expect("whether a copy was made", False, copy.exists())


# The check

def checked(program, room):
    """kcr-check ends with 0 where the register answers, its disk has room and a backup is new, and else with 1 and a
    line that begins with `bad`."""
    with installed(program, room / "here") as here:
        told = here.well("kcr-check", "--backups", filled(program, room / "2025-02-13T200000Z.db", 1).parent)
        expect("the lines", ["ok:"] * 3, [line.split()[0] for line in told.splitlines()])
        here.badly(1, "bad: the disk of", "kcr-check", "--room", 10 ** 9)
        os.utime(room / "2025-02-13T200000Z.db", (0, 0))
        here.badly(1, "has no backup of the last 25 hours", "kcr-check", "--backups", room)
        here.badly(1, "bad: ", "kcr-check", "--backups", room / "none")
        with kcr.connect(here.port):  # the desk waits five seconds for a connection that says nothing
            here.badly(1, "does not answer", "kcr-check", "--seconds", 1)
        here.well("systemctl", "stop", "kcr")
        here.badly(1, "does not answer", "kcr-check")
        for name, (status, kind, body, _) in ANSWERS.items():
            with answering(status, kind, body) as url:
                here.badly(1, f"bad: {url} answers", "kcr-check", "--url", url)


# The page

def proxied(program, room):
    """The printed proxy passes the commands of those who may write and the questions of all clients, refuses what a
    foreign web page can send, logs the sender and the body of each command that it passes, and reads in another file.
    It serves the page, and kcr-follow copies a register through it."""
    proxy.certify(room)
    with kcr.Server(program, 1_000) as server, installed(program, room / "here", started=False) as here:
        port = kcr.free_port()
        with proxy.proxy(room, port, server.port):
            sent = []
            for number, (who, method, fields, status) in enumerate(proxy.PROXIED):
                body = b"" if method in ("GET", "HEAD") else proxy.COMMAND % (number, kcr.initials(number))
                expect(f"{who} {method} {fields}", status, proxy.over_tls(room, port, who, method, fields, body))
                if method == "POST":
                    passed = body.decode() if status == 200 else ""
                    sent.append((sorted(proxy.NAMES[who][1:].split("/")), status, passed))
            expect("how many lines of reads", 4, len(proxy.logged(room / "kcr-reads.log", 4)))
            found = proxy.senders(room / "commands.log", len(sent))
            expect("the log of commands", [line[1:] for line in sent], [line[1:] for line in found])
            expect("the senders", sent[:-2], found[:-2])  # the last two have commas in their names
            expect("a large body", 413, proxy.over_tls(room, port, "desk", "POST", (proxy.JSON,), b"x" * 131_073))
            for path, status in (("/", 302), ("/page/", 200), ("/page/main.js", 200), ("/page/serve.py", 404),
                                 ("/page/../tests/kcr.py", 404), ("/page/none.js", 404)):
                expect(f"the desk's page, {path}", status, proxy.over_tls(room, port, "reader", "GET", (), b"", path))
            for kind in ("pem", "key"):
                (room / f"standby.{kind}").write_bytes((room / f"reader.{kind}").read_bytes())
            words = proxy.printed("A copy while it serves", "sh").split()
            words[3:3] = ["--connect-to", f"::127.0.0.1:{port}"]
            expect("the copy", "copy.db: 3 commands, was behind by 3\n", here.well(*words, cwd=room))
            expect("how many commands", 3, kcr.commands_in(room / "copy.db"))
            for some, why in ((words[:5], "cannot be reached"), (words[:7], "answers with status 400")):
                status, text = here.run(*some, cwd=room)
                expect(f"whether {why!r} is in {text!r}", (1, True), (status, why in text))


def steps():
    """The steps of the rehearsal: the machine, the commands, and the lines that they print."""
    text = machine.PAGE.read_text(encoding="utf-8").partition("\n## A rehearsal\n")[2].partition("\n## ")[0]
    found = re.findall(r"(?ms)^```sh (\w+)\n(.*?)^```\n\n```text\n(.*?)^```$", text)
    expect("the printed blocks", (text.count("```sh"), text.count("```text")), (len(found), len(found)))
    return found


def rehearsed(program, room):
    """The rehearsal runs as printed, on two machines, and prints what the page says."""
    with contextlib.ExitStack() as stack:
        both = {}
        for name in ("first", "standby"):
            both[name] = Machine(program, room / name)
            stack.callback(both[name].run, "systemctl", "stop", "kcr")
        settings = both["standby"].root / "etc/default/kcr"
        settings.write_text(f'SOURCE="http://127.0.0.1:{both["first"].port}"\nCURL=""\n')
        for here in both.values():
            here.env.update(FIRST=both["first"].env["ROOT"], FIRST_PORT=both["first"].env["PORT"])
        for number, (name, commands, lines) in enumerate(steps(), 1):
            here = both[name]
            rest = here.well("sh", "-euc", here.here(commands))
            for line in here.here(lines).splitlines():
                found = re.search(rf"(?m)^{'.*'.join(map(re.escape, line.split('..')))}$", rest)
                if not found:
                    raise Wrong(f"step {number} does not print {line!r} in {rest!r}")
                rest = rest[found.end():]
        left = [path for here in both.values() for path in here.root.rglob("*") if path.name.startswith(REGISTER)]
        expect("what is left of the registers", [], left)
        left = [path for here in both.values() for path in (here.root / "etc/systemd").rglob("*") if path.is_symlink()]
        expect("what is left of the links", [], left)


# Its other commands

SERVED = "kcr serve --file register.db --port 8053 --connections 1000000 &"
LATER = "kcr export --file register.db --until "


def others():
    """The blocks of commands of the page outside the rehearsal, by their first lines."""
    text = re.sub(r"(?ms)^## A rehearsal$.*?(?=^## )", "", machine.PAGE.read_text(encoding="utf-8"))
    return {block.splitlines()[0]: block for block in re.findall(r"(?ms)^```sh\n(.*?)^```$", text)}


def printed(program, room):
    """Each other block of commands of the page runs as printed: those that install and watch, back up, restore, follow
    and take over; those that leave a command out; and those that serve the page without nginx. The first one of a copy
    is run by `proxied`."""
    left = others()
    with contextlib.ExitStack() as stack:
        here = Machine(program, room / "here")
        stack.callback(here.run, "systemctl", "stop", "kcr")
        backups = here.root / "var/backups/kcr"
        for first in ("apt install ./kcr_1.0.0_amd64.deb", "systemctl enable --now kcr-check.timer",
                      "kcr-backup /var/backups/kcr", "kcr-restore /var/backups/kcr/2025-02-13T200000Z.db",
                      "systemctl disable --now kcr-follow.timer", "systemctl enable --now kcr-follow.timer",
                      "systemctl stop kcr-follow.timer"):
            if first.startswith("kcr-backup"):
                backups.mkdir()
                for number in (1, 2, 3):
                    expect("a command", kcr.accepted(number), here.post(number))
            if first == "systemctl stop kcr-follow.timer":
                here.well("systemctl", "stop", "kcr")
            here.well("sh", "-euc", here.here(left.pop(first)), cwd=room)
            for made in backups.glob("*Z.db"):
                made.rename(backups / "2025-02-13T200000Z.db")
        copied = here.file.parent / "before" / REGISTER
        (room / REGISTER).write_bytes(copied.read_bytes())
        later = left.pop(next(first for first in left if first.startswith(LATER)))
        here.well("sh", "-euc", f"N=2; {later}", cwd=room)
        expect("the commands before and after", (1, 1),
               (kcr.commands_in(room / "corrected.db"), (room / "rest.http").read_text().count("POST ")))
        (room / "page").symlink_to(machine.TOP / "page")
        served(here, room, left.pop(SERVED))
    expect("what is not run", [proxy.printed("A copy while it serves", "sh").splitlines()[0]], list(left))


def served(here, room, block):
    """The page and the register, by the block that serves both, answer on the page's port."""
    port = str(kcr.free_port())
    words = ["sh", "-euc", here.here(block).replace("8080", port)]
    with subprocess.Popen(words, cwd=room, env=here.env, stdout=subprocess.DEVNULL, start_new_session=True) as run:
        try:
            for path in ("/page/", "/people"):
                asked = ("curl", "-sf", "--retry", "60", "--retry-delay", "1", "--retry-all-errors",
                         f"http://127.0.0.1:{port}{path}")
                expect(f"whether {path} has an answer", True, here.well(*asked) != "")
        finally:
            os.killpg(run.pid, signal.SIGKILL)


def links(_program, _room):
    """Each link of the page to a heading of it has one, and each file that it links to is there."""
    text = machine.PAGE.read_text(encoding="utf-8")
    headings = {re.sub(r"[^\w -]", "", line).lower().replace(" ", "-") for line in re.findall(r"(?m)^##+ (.*)$", text)}
    for file, heading in re.findall(r"\]\(([^)#]*)#?([^)]*)\)", text):
        expect(f"whether {file}#{heading} is there", True,
               heading in headings if not file else (machine.PAGE.parent / file).exists())


TESTS = [helps, made_once, lost_file, backed_up, saved, full_disk, no_room, restored, not_restored, not_up, broken_off,
         alarmed, followed, another_history, many_answers, long_commands, no_source, checked, proxied, rehearsed, printed,
         links]
CURLED = [lost_file, full_disk, alarmed, followed, another_history, many_answers, long_commands, no_source, checked,
          rehearsed, printed]
NEEDS = dict.fromkeys(CURLED, "curl")
NEEDS[proxied] = "curl openssl nginx"


if __name__ == "__main__":
    kcr.judge_installed(TESTS, NEEDS, __doc__)
