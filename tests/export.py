#!/usr/bin/env python3
"""The accepted commands of a file as requests: `kcr export`.

    tests/export.py PROGRAM [NAME ..]

Shown are, over each kept stream of `files` and the example's ceremony: that the export is the accepted commands in the
order of their numbers and the feed, joined; that a new register that takes it gives the kept answers, has the same rows
and the same export; that parts of it, joined, are the whole; that a file of an older version is read and stays so. Then
what is told of a file that is no register, of one without commands and of an invalid row, that a write
fails, and that exports that are taken while commands come in are beginnings of the last one.

The last line is `N passed, M failed`, and the status is 0 where none failed.
"""
import sys

sys.dont_write_bytecode = True  # no files beside these

import random

import kcr
from feed import feed, filled, kept, told_again
from kcr import MOST_COMMANDS, call, expect
from printed import files as filled_files
from printed import printed, tests_of
from program import made_older


def exported(program, file, *words):
    """The export of a file that has a command."""
    return printed(program, "export", file, *words)


def files(program, room):
    """Each register with a command: its file, the requests that it has to export, and the answers to them."""
    for name, file, commands in filled_files(program, room):
        yield name, file, [told_again(message) for message, _ in commands], [kept(answer) for _, answer in commands]


# The tests

def each_command_once(program, room):
    """The export is the accepted commands and the feed, and reading it changes no byte."""
    for name, file, wanted, _ in files(program, room):
        before = kcr.contents(file)
        expect(f"the export of {name}", b"".join(wanted), exported(program, file))
        expect(f"the bytes of {name}", before, kcr.contents(file))
        expect(f"the feed of {name}", b"".join(wanted), feed(program, file))


def the_same_register(program, room):
    """A new register that takes the export gives the kept answers, has the same rows and exports the same bytes."""
    for name, file, wanted, answers in files(program, room):
        again, told = room / f"{name}-again.db", exported(program, file)
        expect(f"the answers of {name}", b"".join(answers), filled(program, again, told))
        expect(f"the rows of {name}", kcr.rows_of(file), kcr.rows_of(again))
        expect(f"the export of the second {name}", told, exported(program, again))
        for one in (file, again):
            expect(f"verify {one.name}", (b"verified: %d commands\n" % len(wanted), b"", 0),
                   call(program, "verify", "--file", one))


def its_parts(program, room):
    """`--after` leaves out the first commands, `--until` ends behind one; parts, joined, are the whole."""
    chance = random.Random(59)
    for name, file, wanted, _ in files(program, room):
        count = len(wanted)
        pairs = [(0, 0), (0, 1), (0, count), (0, MOST_COMMANDS), (count, MOST_COMMANDS), (count + 1, MOST_COMMANDS),
                 (MOST_COMMANDS, 0), (count - 1, count), (1, 0), (MOST_COMMANDS, MOST_COMMANDS)]
        pairs += [(chance.randrange(count + 2), chance.randrange(count + 2)) for _ in range(5)]
        for after, until in pairs:
            expect(f"{name}, after {after} until {until}", b"".join(wanted[after:until]),
                   exported(program, file, "--after", after, "--until", until))
        middle = chance.randrange(count + 1)
        expect(f"{name}, until {middle}", b"".join(wanted[:middle]), exported(program, file, "--until", middle))
        expect(f"{name}, after {middle}", b"".join(wanted[middle:]), exported(program, file, "--after", middle))


def of_older_versions(program, room):
    """A register of version 1 or 2, which has no withdrawals, is exported as any other, and stays of its version."""
    for name, file, wanted, _ in files(program, room):
        if any(b"/withdrawals HTTP" in message for message in wanted):
            continue
        for version in (2, 1):
            older = kcr.copy(file, room / f"{name}-{version}")
            made_older(older, version)
            before = kcr.contents(older)
            expect(f"{name} of version {version}", b"".join(wanted), exported(program, older))
            expect(f"the bytes of {name}", before, kcr.contents(older))


def a_row_of_no_register(program, room):
    """Where the text of a row is no command, the commands before it are exported, and then it is refused."""
    file = room / "register.db"
    commands = kcr.short_ceremony()
    filled(program, file, b"".join(commands))
    for number in (1, 5, 10):
        changed = kcr.copy(file, room / f"changed-{number}")
        kcr.change(changed, f"UPDATE keys SET command = 'x' WHERE accepted = {number}")
        output, faults, status = call(program, "export", "--file", changed)
        expect(f"command {number}", (b"refused: 34 disk\n", 1), (faults, status))
        expect(f"before command {number}", b"".join(commands[:number - 1]), output)


def while_it_serves(program, room):
    """Exports that are taken while commands come in are beginnings of the last one, each no shorter than the last."""
    file, count = room / "register.db", 300
    commands = [kcr.person(b"k%d" % n, kcr.initials(n), b"Somebody") for n in range(count)]
    filled(program, file, commands[0])
    with kcr.Server(program, count, file) as server:
        sender = kcr.sender(server.port, commands)
        told, whole = b"", b"".join(commands)
        while sender.is_alive():
            now = exported(program, file)
            expect("that commands stay", True, now.startswith(told))
            told = now
            expect("a beginning", whole[:len(told)], told)
            expect("whole requests", True, len(kcr.messages(told)) >= 1)
        sender.join(kcr.SECONDS)
        expect("the last export", whole, exported(program, file))


TESTS = [each_command_once, the_same_register, its_parts, of_older_versions, a_row_of_no_register, while_it_serves,
         *tests_of("export")]

if __name__ == "__main__":
    kcr.judge_installed(TESTS, {}, __doc__)
