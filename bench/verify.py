#!/usr/bin/env python3
"""What it costs to look through a whole register, by its number of commands.

    bench/verify.py PROGRAM [N ..]

For each N (10000, 20000 and 40000 where none is) a file of N commands is made: whole ceremonies of 60 steps and 12 people
are half of them, people who are entered the other half. Printed are how many rows it holds, and for an opening (a stream
without requests), `audit`, `verify` and `rebuild` the seconds of the processor and by the clock, and the most memory that
the program held (kilobytes). Files lie in the folder that TMPDIR names.
"""
import contextlib
import pathlib
import shutil
import sqlite3
import sys
import tempfile

import table


def stream_of(count):
    """A stream of `count` commands."""
    client = table.Client()
    table.enter_staff(client)
    number = 0
    while len(client.requests) < count // 2:
        number += 1
        table.hold_ceremony(client, number)
    for person in range(count - len(client.requests)):
        client.post("/people", who=table.code(person), name=f"Person {person}")
    return client.take()[0]


def rows_in(file, room):
    """How many rows the tables of a file have together, counted in a copy of it and of the log beside it."""
    for ending in ("", "-wal"):
        shutil.copy(f"{file}{ending}", room / f"copy{ending}")
    with contextlib.closing(sqlite3.connect(room / "copy")) as database:
        names = [name for name, in database.execute("SELECT name FROM sqlite_schema WHERE type = 'table'")]
        return sum(database.execute(f"SELECT count(*) FROM {name}").fetchone()[0] for name in names)


def cells_of(words, told):
    """The seconds and the memory of a call, which has to write this."""
    spent, taken, memory, output, _ = table.run(words, b"")
    if output != told:
        sys.exit(f"{words[1]}: {output}")
    return [f"{spent:.2f}", f"{taken:.2f}", f"{memory:,}"]


def show(program, count, room):
    """The rows of the table for a file of `count` commands."""
    file = room / f"{count}.db"
    table.run([program, "run", "--file", str(file)], stream_of(count))
    commands, rows = f" {count} commands\n".encode(), rows_in(file, room)
    for task, told in [("run", b""), ("audit", b"audit: nothing found\n"), ("verify", b"verified:" + commands),
                       ("rebuild", b"rebuilt:" + commands)]:
        more = ["--into", str(room / f"{count}-rebuilt.db")] if task == "rebuild" else []
        cells = cells_of([program, task, "--file", str(file), *more], told)
        print("| " + " | ".join([f"{count:,}", f"{rows:,}", task, *cells]) + " |", flush=True)


def main():
    program, *counts = sys.argv[1:]
    print("| Commands | Rows | Task | Processor, s | Clock, s | kB |\n|---|---|---|---|---|---|", flush=True)
    with tempfile.TemporaryDirectory() as room:
        for count in map(int, counts or (10000, 20000, 40000)):
            show(program, count, pathlib.Path(room))


if __name__ == "__main__":
    main()
