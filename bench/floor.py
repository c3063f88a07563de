#!/usr/bin/env python3
"""The floor under the register's cost: the statements of N commands `POST /people` by C's sqlite, and then by `kcr`.

    bench/floor.py PROGRAM [N ...]

For each N (10000 where none is) the same N people are entered twice. First by Python's module sqlite3, which is C's
sqlite: the tables, the texts and the one transaction a command are those of the register, and nothing else is done, so
no HTTP, no JSON, no rules. Then by `kcr run`, with all of that. Both in memory and over a file (WAL, synchronous FULL,
one sync a command). Printed are the microseconds a command of the processor and by the clock, each the least of three
runs, and how many times the floor the program takes. Files lie in the folder that TMPDIR names.
"""
import pathlib
import resource
import sqlite3
import subprocess
import sys
import tempfile
import time

TIMES = 3
LETTERS = "ABCDEFGHIJKLMNOPQRSTUVWXYZ"
TABLES = pathlib.Path(__file__).resolve().parent.parent / "tools" / "tables.py"
KEY = 'SELECT "key", accepted, command, reply FROM keys WHERE "key" = ?1 ORDER BY "key"'
PERSON = "SELECT who, name FROM people WHERE who = ?1 ORDER BY who"
PUT_PERSON = "INSERT INTO people (who, name) VALUES (?1, ?2)"
PUT_KEY = 'INSERT INTO keys ("key", accepted, command, reply) VALUES (?1, ?2, ?3, ?4)'


def person(number):
    """The key, the initials and the name of the number-th person."""
    who = "".join(LETTERS[number // 26**place % 26] for place in (3, 2, 1, 0))
    return f"k{number:06d}", who, f"Person {number}"


def stream(count):
    """The requests that enter so many people."""
    bodies = ('{"key":"%s","who":"%s","name":"%s"}' % person(number) for number in range(count))
    return "".join(f"POST /people HTTP/1.1\r\nHost: l\r\nContent-Length: {len(body)}\r\n\r\n{body}"
                   for body in bodies).encode()


def measured(whose, act):
    """The least seconds of some runs of `act(folder)`: of the processor, and by the clock."""
    found = []
    for _ in range(TIMES):
        with tempfile.TemporaryDirectory() as room:
            before, begun = resource.getrusage(whose), time.monotonic()
            act(pathlib.Path(room))
            taken, after = time.monotonic() - begun, resource.getrusage(whose)
            found.append((after.ru_utime + after.ru_stime - before.ru_utime - before.ru_stime, taken))
    return min(spent for spent, _ in found), min(taken for _, taken in found)


def enter(database, accepted, key, who, name):
    """The statements of one command, which gets this number."""
    database.execute("BEGIN IMMEDIATE")
    database.execute(KEY, (key,)).fetchall()
    database.execute(PERSON, (who,)).fetchall()
    database.execute(PUT_PERSON, (who, name))
    database.execute(PUT_KEY, (key, accepted, f'enter {who} {name}', f'{{"accepted":{accepted}}}'))
    database.execute("COMMIT")


def floor(schema, path, count):
    """All of them by C's sqlite."""
    database = sqlite3.connect(path, isolation_level=None)
    database.execute("PRAGMA journal_mode = WAL")
    database.execute("PRAGMA synchronous = FULL")
    for text in schema:
        database.execute(text)
    for number in range(count):
        enter(database, number + 1, *person(number))
    database.close()


def play(program, words, requests, count):
    """All of them by the program."""
    told = subprocess.run([program, "run", *words], input=requests, capture_output=True, check=True)
    if told.stdout.count(b'"accepted"') != count:
        sys.exit("not all commands were accepted")


def main():
    program, *counts = sys.argv[1:] or sys.exit(__doc__)
    program = pathlib.Path(program).resolve()
    schema = subprocess.run([sys.executable, TABLES, "schema"], capture_output=True, text=True,
                            check=True).stdout.splitlines()
    for count in map(int, counts or [10_000]):
        requests = stream(count)
        for where in ("in memory", "over a file"):
            path = (lambda room: room / "register") if where == "over a file" else (lambda room: None)
            least = measured(resource.RUSAGE_SELF, lambda room: floor(schema, path(room) or ":memory:", count))
            taken = measured(resource.RUSAGE_CHILDREN, lambda room: play(
                program, ["--file", path(room)] if path(room) else [], requests, count))
            spent, wall = ([seconds / count * 1e6 for seconds in times] for times in zip(least, taken))
            print(f"{count} commands {where}: floor {spent[0]:.0f} us of the processor, {wall[0]:.0f} by the clock; "
                  f"kcr {spent[1]:.0f} and {wall[1]:.0f}, {spent[1] / spent[0]:.1f} and {wall[1] / wall[0]:.1f} times")


if __name__ == "__main__":
    main()
