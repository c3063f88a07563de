#!/usr/bin/env python3
"""The program killed at random moments while it takes commands over a file.

    tests/kills.py PROGRAM [KILLS]

Commands are sent one after the other, the next once the last is answered, and at a random moment (of a fixed seed) the
program gets SIGKILL: some time after its start in one life, which may be while it opens the file, and some time after
its first answer in the next, so that half of the lives take commands however slow the machine is. Then it is started
anew over the same file, and the command that has no answer yet is sent first. Each command has to get its own number:
so the file held all that were answered, and at most one more, which was then repeated. That goes on with the same file
for KILLS times (200 if none is said). At the end an audit finds nothing, all commands sent again get their answers
again, and sqlite3 finds the file sound.

The last line is `N passed, M failed`, and the status is 0 where none failed.
"""
import sys

sys.dont_write_bytecode = True  # no files beside these

import pathlib
import random
import subprocess
import threading

import kcr

LONGEST_LIFE = 0.15  # seconds


def command(number):
    """The command of this number, from 0 on, and its answer."""
    return kcr.person(b"k%d" % number, kcr.initials(number), b"Somebody"), kcr.accepted(number + 1)


def life(program, file, answered, seconds, is_answering):
    """How many commands are answered in all, if the program is killed `seconds` after its start or, if it is to be
    answering, after its first answer."""
    with subprocess.Popen([program, "run", "--file", file], stdin=subprocess.PIPE, stdout=subprocess.PIPE,
                          bufsize=0) as run:
        clock = threading.Timer(seconds, run.kill)
        if not is_answering:
            clock.start()
        while True:
            message, wanted = command(answered)
            try:
                run.stdin.write(message)
            except OSError:
                break
            told = b""
            while len(told) < len(wanted) and (more := run.stdout.read(len(wanted) - len(told))):
                told += more
            kcr.expect(f"a beginning of the answer to command {answered}", wanted[:len(told)], told)
            if told != wanted:
                break
            answered += 1
            if clock.ident is None:
                clock.start()
        if clock.ident is not None:
            clock.join()
    return answered


def killed(program, kills, room):
    """After each kill the file holds all answered commands, and at most one more."""
    file, moments, answered, lives = room / "register", random.Random(20250213), 0, 0
    for number in range(kills):
        before = answered
        answered = life(program, file, answered, moments.uniform(0, LONGEST_LIFE), number % 2 == 1)
        lives += answered > before
    print(f"    {answered} commands answered in {kills} lives, {lives} of them with an answer")
    kcr.expect("half of the lives have an answer", True, lives >= kills // 2)
    kcr.expect("audit", (b"audit: nothing found\n", b"", 0), kcr.call(program, "audit", "--file", file))
    commands = [command(number) for number in range(answered)]
    kcr.expect("all commands again", b"".join(answer for _, answer in commands),
               kcr.call(program, "run", "--file", file, stream=b"".join(message for message, _ in commands))[0])
    with kcr.opened(file) as database:
        kcr.expect("sqlite3", [("ok",)], database.execute("PRAGMA integrity_check").fetchall())


def main():
    if len(sys.argv) < 2:
        sys.exit(__doc__)
    program = str(pathlib.Path(sys.argv[1]).resolve())
    kills = int(sys.argv[2]) if len(sys.argv) > 2 else 200
    kcr.judge([("killed", killed.__doc__, lambda room: killed(program, kills, room))])


if __name__ == "__main__":
    main()
