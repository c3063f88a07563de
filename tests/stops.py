#!/usr/bin/env python3
"""The program over a file that stops: from some call on each call of the file, or of its log, fails.

    tests/stops.py PROGRAM [NAME ..]

A library that stands before the C library (`faults.c`) passes N calls of one file on (to read, write, cut or sync it or
to ask for its length) and has each one behind them fail, for every N from 0 on until a run meets no stop, and for the
database and its log in turn. That goes on while the tables of a new file are made, while registers of the
versions 1 and 2 are brought to version 3 and take a command, while the ten commands of a ceremony are taken, and while
three cases are played. Shown are: where the opening is stopped the program says `open: disk`; a command that is stopped
is told that the device failed (34), and all behind it that the register is broken (35). What is then left is opened
twice: all that was written, as when the program alone ends, and only what each file had said to be safe, as when the
machine stops. Either has, as sqlite3 reads it, the tables as they were before the step that was stopped or as they are
after it, and so all commands that were answered; and the commands from the stopped one on, and the accepted one before
it, sent again, get the answers that they would have had. Of a port: the program ends after a connection in which the
file stopped, with a line that says so, and one that says whether the disk had no room. Of reports: where a write fails
a beginning was printed, and the next report is whole. Of a pack and a rebuild: no file without a byte is left that was
made for it. With names only the tests with these names run.

The last line is `N passed, M failed`, and the status is 0 where none failed. Where there is no C compiler nothing is
tested, and it says so.
"""
import sys

sys.dont_write_bytecode = True  # no files beside these

import itertools
import pathlib
import re
import shutil
import sqlite3

import kcr
from kcr import Wrong, call, change, expect, log_of, opened
from program import NEWER, made_older

DISK = kcr.answer(b"500 Internal Server Error", b'{"number":34,"refusal":"disk"}')
BROKEN = kcr.answer(b"500 Internal Server Error", b'{"number":35,"refusal":"broken"}')
UNOPENED = re.compile(rb"open: disk\n(opening|reading): [^\n]*\n")
UNWRITTEN = (b"fault: write\n", 1)
EXAMPLES = ["entered-and-listed", "step-out-of-order", "serial-used-once"]


def is_unopened(told):
    """Whether a run ended with the lines of a file that could not be opened, and with nothing else."""
    output, faults, status = told
    return output == b"" and status == 1 and UNOPENED.fullmatch(faults) is not None


def held(file):
    """The tables of a database with their rows, as sqlite3 reads it; none where there is no database yet."""
    if not file.is_file() or not file.stat().st_size:
        return {}
    with opened(file) as database:
        try:
            names = [name for name, in database.execute("SELECT name FROM sqlite_schema WHERE type = 'table'")]
        except sqlite3.DatabaseError:
            return {}
        return {name: sorted(database.execute(f"SELECT * FROM {name}"), key=repr) for name in names}


def put(source, target):
    """Puts the files of a register at another place, where nothing is yet; those that are not there are left out."""
    for one, other in ((source, target), (log_of(source), log_of(target))):
        other.unlink(missing_ok=True)
        if one.is_file():
            shutil.copyfile(one, other)
    return target


class Trial:
    """A register's file as it is before, commands, and what comes of them where nothing stops: the answers, and the
    tables before, once the file is opened, and after each command."""

    def __init__(self, program, library, file, commands):
        self.program, self.library, self.file, self.commands = program, library, file, commands
        whole, self.looked_at = put(file, file.with_name("whole")), set()
        self.answers, self.tables = [], [held(whole)]
        for command in [b"", *commands]:
            output, *end = call(program, "run", "--file", whole, stream=command)
            expect("the end of a command", (b"", 0), tuple(end))
            self.answers.append(output)
            self.tables.append(held(whole))
        self.answers.pop(0)  # of the opening alone

    def steps(self, told):
        """How many steps were done, the opening being the first, by what the program says."""
        if is_unopened(told):
            return 0
        count = len(self.commands)
        for done in range(count + 1):
            stopped = [DISK] + [BROKEN] * (count - done - 1) if done < count else []
            if told == (b"".join(self.answers[:done] + stopped), b"", 0):
                return done + 1
        raise Wrong(f"what it says: {told!r:.3000}")

    def outlived(self, steps, left):
        """Sees that files hold the tables before the step that was stopped or after it, and go on from there. The same
        files are looked at once, since a call that reads changes nothing."""
        found = (steps, kcr.contents(left))
        if found in self.looked_at:
            return
        self.looked_at.add(found)
        if held(left) not in self.tables[steps:steps + 2]:
            raise Wrong(f"{steps} steps were done, and {left.name} holds {held(left)!r:.3000}")
        again = max(steps - 1, 0)  # the command that was stopped, or the one before it where that was accepted
        again -= again > 0 and b'{"accepted":' in self.answers[again - 1]
        expect("what is sent again", (b"".join(self.answers[again:]), b"", 0),
               call(self.program, "run", "--file", left, stream=b"".join(self.commands[again:])))
        expect("the tables in the end", self.tables[-1], held(left))

    def stopped(self, which, calls):
        """Stops a file after `calls` calls; whether that came to a stop."""
        tried = put(self.file, self.file.with_name("tried"))
        safe = put(self.file, self.file.with_name("tried-safe"))  # what the library keeps of it
        what = {"REGISTER": str(tried), "CALLS": str(calls)} | ({"LOG": "1"} if which == "log" else {})
        told, is_stopped = kcr.faulty(self.program, self.library, what, "run", "--file", tried,
                                      stream=b"".join(self.commands))
        try:
            steps = self.steps(told)
            if not is_stopped:
                expect("the steps of a run without a stop", len(self.commands) + 1, steps)
            self.outlived(steps, tried)
            self.outlived(steps, safe)
        except Wrong as wrong:
            raise Wrong(f"the {which} stopped after {calls} calls: {wrong}") from None
        return is_stopped

    def swept(self, what):
        """Stops the database and its log after each number of calls, until a run meets no stop."""
        for which in ("database", "log"):
            last = next(calls for calls in itertools.count() if not self.stopped(which, calls))
            print(f"    {what}: the {which} takes {last} calls")
            if which == "log":
                expect("something is written to the log", True, last > 0)


def tables_are_made(program, library, room):
    """A new file stops while its tables are made."""
    Trial(program, library, room / "register", []).swept("a new file")


def older_registers_are_brought(program, library, room):
    """A register of version 1 or 2 stops while it is brought to version 3, or while it then takes a command."""
    filled = room / "filled"
    call(program, "run", "--file", filled, stream=b"".join(kcr.short_ceremony()))
    item = kcr.post(b"/items", b"k11", b'"ceremony":61,"item":"HSM5","at":"2025-02-13T20:14:00Z"')
    for version in NEWER:
        file = put(filled, room / "register")
        made_older(file, version)
        Trial(program, library, file, [item]).swept(f"version {version}")


def commands_are_taken(program, library, room):
    """A file stops while commands are taken, a signature among them."""
    Trial(program, library, room / "register", kcr.short_ceremony()).swept("ten commands over a new file")


def a_signature_is_taken(program, library, room):
    """A file that was there before stops while a step is signed, an item added and a bag sealed."""
    file, commands = room / "register", kcr.short_ceremony()
    call(program, "run", "--file", file, stream=b"".join(commands[:6]))
    change(file, "PRAGMA user_version = 0")  # all of it lies in the one file now
    call(program, "run", "--file", file, stream=commands[6])
    Trial(program, library, file, commands[7:]).swept("three commands over a register's file")


def examples_are_played(program, library, room):
    """A new file stops while a person is entered and listed, while an exception passes over a step, or while a bag is
    sealed and cut."""
    for name in EXAMPLES:
        (room / name).mkdir()
        Trial(program, library, room / name / "register", kcr.case(name)).swept(name)


def stops_in_a_connection(program, library, room, how, line):
    """A log stops in a connection, which is told so; then the program says that the register is broken, and by what, and
    ends, with two more connections to serve. The command that was stopped is then sent again."""
    file, commands = room / "register", kcr.short_ceremony()
    question = kcr.request(b"GET", b"/people")
    for calls in itertools.count():
        what = {"REGISTER": str(put(file, room / "tried")), "CALLS": str(calls), "LOG": "1"} | how
        told = kcr.faulty(program, library, what, "run", "--file", room / "tried", stream=commands[0])[0]
        if not is_unopened(told):
            break
    expect("the first command", (DISK, b"", 0), told)
    put(file, room / "tried")
    with kcr.Server(program, 4, room / "tried", environment={"LD_PRELOAD": str(library), **what}) as server:
        expect("a connection without a request", b"", kcr.exchange(server.port, []))
        expect("the connection in which the file stops", DISK + BROKEN + BROKEN,
               kcr.exchange(server.port, [commands[0] + question + commands[0]]))
        expect("the end", (b"", b"refused: 35 broken\n" + line, 1), server.end())
    expect("the first command again", (kcr.accepted(1), b"", 0),
           call(program, "run", "--file", room / "tried", stream=commands[0]))


def a_connection_breaks_it(program, library, room):
    """A write fails in a connection, and the program says so."""
    stops_in_a_connection(program, library, room, {}, b"broken: writing\n")


def a_disk_is_full(program, library, room):
    """A write finds no room in a connection, and the program says so."""
    stops_in_a_connection(program, library, room, {"NO_ROOM": "1"}, b"broken: no room\n")


def reports_are_cut(program, library, room):
    """A report whose writes fail, at its third line too, leaves its lines before, and the next one is whole."""
    file = room / "register"
    call(program, "run", "--file", file, stream=b"".join(kcr.case("script-of-400-steps")))
    held = kcr.contents(file)
    for words in (("print", "--ceremony", "61"), ("custody",)):
        text = call(program, *words, "--file", file)[0]
        lines, counts = text.splitlines(keepends=True), []
        for writes in (0, 1, 2, 3):
            (output, *end), is_stopped = kcr.faulty(program, library, {"OUTPUT": str(writes)}, *words, "--file", file)
            counts.append(len(output.splitlines()))
            expect(f"{words[0]}, {writes} writes", (b"".join(lines[:counts[-1]]), UNWRITTEN, True),
                   (output, tuple(end), is_stopped))
            expect(f"{words[0]} after {writes} writes", (text, b"", 0), call(program, *words, "--file", file))
        expect(f"{words[0]}: no line, two lines, and more each time", (0, True, sorted(set(counts))),
               (counts[0], 2 in counts, counts))
    expect("the files", held, kcr.contents(file))


def no_empty_file_is_left(program, library, room):
    """A file stops while a register is packed or rebuilt into it: of one that was not there before, none without a byte
    is left; one that was there stays."""
    file, into = room / "register", room / "into"
    call(program, "run", "--file", file, stream=b"".join(kcr.short_ceremony()))
    for task, which, was_there in itertools.product(("pack", "rebuild"), ("database", "log"), (False, True)):
        for calls in itertools.count():
            for path in (into, log_of(into)):
                path.unlink(missing_ok=True)
            if was_there:
                into.touch()
            what = {"REGISTER": str(into), "CALLS": str(calls)} | ({"LOG": "1"} if which == "log" else {})
            told, is_stopped = kcr.faulty(program, library, what, task, "--file", file, "--into", into)
            if not is_stopped:
                break
            name = f"{task}, the {which} stopped after {calls} calls: {told!r:.300}"
            if was_there:
                expect(f"{name}: whether the file is there", True, into.exists())
            else:
                expect(f"{name}: whether a file without a byte is left", False,
                       into.exists() and into.stat().st_size == 0)
                expect(f"{name}: whether a log without its file is left", False,
                       log_of(into).exists() and not into.exists())
        expect(f"{task} with nothing stopped", 0, told[2])


TESTS = [tables_are_made, older_registers_are_brought, commands_are_taken, a_signature_is_taken,
         examples_are_played, a_connection_breaks_it, a_disk_is_full, reports_are_cut, no_empty_file_is_left]


def main():
    if len(sys.argv) < 2:
        sys.exit(__doc__)
    kcr.judge_faults(TESTS, sys.argv[2:], str(pathlib.Path(sys.argv[1]).resolve()))


if __name__ == "__main__":
    main()
