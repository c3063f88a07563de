#!/usr/bin/env python3
"""Lists every row in which two files of a register differ, for auditors: `kcr verify` names only the first.

    kcr export --file register.db | kcr run --file made.db > answers.http
    tools/differences.py register.db made.db

The second file is a new one that got the commands of the first, by `kcr run` as above or by `kcr rebuild`. `rebuild`
stops at the first command that is not as it was, and makes nothing if a row is invalid (`refused: 34 disk`). A register
has only valid rows, so each invalid row of the first file differs, and is listed.

As in `kcr verify`, `expected` is the row of the second file and `found` that of the first, each as sqlite3 prints it in
its mode `quote`, and `none` stands for no row. Two rows are compared if they have the same key, of `keys` the same
number. Behind the number of a day or a moment comes its date. The last line counts the rows by table.

Rows are read in the order of their keys and printed at once, so memory does not grow with them. Nothing is written. The
status is 0 if no row differs, 1 if some do, and 2 if a file cannot be read or both are not of one version.
"""
import argparse
import contextlib
import datetime
import pathlib
import sqlite3
import sys

TABLES = ("keys people trainings withdrawals appointments boxes safes bags items ceremonies marks steps seatings sheet "
          "stays exceptions").split()
DAYS = {"trainings": {"since", "until"}, "withdrawals": {"since", "until", "day"}, "appointments": {"since", "until"},
        "ceremonies": {"day"}}
MOMENTS = {"ceremonies": {"opened", "closed"}, "marks": {"at"}, "steps": {"at"}, "sheet": {"at"},
           "stays": {"since", "until"}, "exceptions": {"at"}}
EPOCH = datetime.datetime(1970, 1, 1)


class Unlike(Exception):
    """The files are not of one version."""


def dated(number, unit, form):
    """A number with its date, if it has one."""
    try:
        return f"{number} ({EPOCH + datetime.timedelta(**{unit: number}):{form}})"
    except OverflowError:
        return str(number)


def quoted(text):
    """A text as SQL has it: a quote is doubled, and a control character stands outside of the quotes."""
    pieces, plain = [], ""
    for one in text.decode(errors="backslashreplace"):
        if one < " " or one == "\x7f":
            pieces += [f"'{plain}'"] * (plain != "") + [f"char({ord(one)})"]
            plain = ""
        else:
            plain += "''" if one == "'" else one
    return "||".join(pieces + [f"'{plain}'"] * (plain != "" or not pieces))


def cell(table, column, value):
    """A value as sqlite3 prints it, and the date of a day or a moment."""
    if value is None:
        return "NULL"
    if isinstance(value, bytes):
        return quoted(value)
    if column in DAYS.get(table, ()):
        return dated(value, "days", "%Y-%m-%d")
    if column in MOMENTS.get(table, ()):
        return dated(value, "seconds", "%Y-%m-%dT%H:%M:%SZ")
    return str(value)


def row_text(table, columns, row):
    """A row, or `none`."""
    return "none" if row is None else ",".join(map(cell, [table] * len(columns), columns, row))


def columns_of(database, table):
    """The columns of a table, and how many columns of its key come first. The key of `keys` is its number."""
    found = database.execute(f"PRAGMA table_info({table})").fetchall()
    names = [name.decode() for _, name, *_ in found]
    keys = [name for _, name in sorted((place, name.decode()) for _, name, _, _, _, place in found if place)]
    return names, keys


def rows_of(database, table, columns, keys):
    """The rows of a table, one at a time in the order of their keys: each its key and its values."""
    listed, order = (", ".join(f'"{name}"' for name in names) for names in (columns, keys))
    places = [columns.index(name) for name in keys]
    for row in database.execute(f"SELECT {listed} FROM {table} ORDER BY {order}"):
        yield tuple(row[place] for place in places), row


def differing(made, found):
    """The rows of two tables that differ, in the order of their keys: each that was made or None, and that which was
    found or None."""
    one, other = next(made, None), next(found, None)
    while one or other:
        if other is None or one and one[0] < other[0]:
            yield one[1], None
            one = next(made, None)
        elif one is None or other[0] < one[0]:
            yield None, other[1]
            other = next(found, None)
        else:
            if one[1] != other[1]:
                yield one[1], other[1]
            one, other = next(made, None), next(found, None)


def schema(database):
    """What a file holds: its tables, and the number of its version."""
    kept = database.execute("SELECT name, sql FROM sqlite_schema ORDER BY name").fetchall()
    return kept, database.execute("SELECT number FROM versions").fetchall()


def opened(path):
    """A file that is only read, as of one moment."""
    database = sqlite3.connect(f"{path.resolve().as_uri()}?mode=ro", uri=True, isolation_level=None)
    database.text_factory = bytes
    database.execute("BEGIN")
    return database


def listed(found, made):
    """Prints the rows that differ, and returns how many, by table."""
    if schema(found) != schema(made):
        raise Unlike("the files are not of one version")
    counts = {}
    for table in TABLES:
        columns, keys = columns_of(made, table)
        pairs = differing(rows_of(made, table, columns, keys), rows_of(found, table, columns, keys))
        for expected, row in pairs:
            if table not in counts:
                print(f"table {table}")
            print(f"row: expected {row_text(table, columns, expected)}; found {row_text(table, columns, row)}")
            counts[table] = counts.get(table, 0) + 1
    return counts


def main():
    parser = argparse.ArgumentParser(description="Lists every row in which two files of a register differ.")
    parser.add_argument("found", type=pathlib.Path, help="the register's file")
    parser.add_argument("made", type=pathlib.Path, help="a new file that got its commands")
    words = parser.parse_args()
    sys.stdout.reconfigure(encoding="utf-8")
    try:
        with contextlib.closing(opened(words.found)) as found, contextlib.closing(opened(words.made)) as made:
            counts = listed(found, made)
    except (sqlite3.Error, Unlike) as fault:
        print(f"differences: {fault}", file=sys.stderr)
        sys.exit(2)
    print("differences:", ", ".join(f"{table} {count}" for table, count in counts.items()) or "none")
    sys.exit(1 if counts else 0)


if __name__ == "__main__":
    main()
