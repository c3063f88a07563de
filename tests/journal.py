#!/usr/bin/env python3
"""The accepted commands of a file as lines for people: `kcr journal`.

    tests/journal.py PROGRAM [NAME ..]

Each line has the command's number, its moment or day, and a sentence with names. The lines that are expected are made
here, from the requests and their answers alone. Shown are, over each kept stream of `files` and the example's ceremony:
the whole journal, and that of each ceremony; that a file of an older version has the same journal, and that no byte of
a file changes. Then what is told of a file that is no register, of one without commands and of a row that no register
stores, and that a write fails.

The last line is `N passed, M failed`, and the status is 0 where none failed.
"""
import sys

sys.dont_write_bytecode = True  # no files beside these

import json
import re

import kcr
from feed import filled
from kcr import call, expect
from printed import files as filled_files
from printed import printed, tests_of
from program import made_older

DASH = "-"


def sentence(path, given, told, named):
    """What a command did. `told` is its answer, `named` gives people by name and initials."""
    parts = path.strip("/").split("/")
    kind = [part for part in parts if part.isalpha() and part.islower()]
    ceremony = parts[1] if parts[0] == "ceremonies" and len(parts) > 1 else given.get("ceremony")
    if kind == ["people"]:
        return f"{named([given['who']])} was entered."
    if kind == ["people", "roles"]:
        return f"{named(parts[1:2])} is trained as {given['role']} from {given['from']} until {given['until']}."
    if kind == ["people", "withdrawals"]:
        return f"{named(parts[1:2])} is no longer trained as {given['role']} from {given['day']} on."
    if kind == ["custodians"]:
        return f"{named([given['who']])} holds {given['place']} from {given['day']} on."
    if kind == ["custodians", "replacement"]:
        return f"{named([given['who']])} takes over {parts[1]} from {given['day']} on."
    if kind == ["custodians", "release"]:
        return f"{parts[1]} is vacant from {given['day']} on."
    if kind == ["boxes"]:
        return f"Box {given['box']} at {given['facility']} was added for {given['place']}."
    if kind == ["ceremonies"]:
        return f"Ceremony {given['number']} was planned at {given['facility']} for {given['day']}."
    if kind == ["items"]:
        return f"Item {given['item']} was added in ceremony {ceremony}."
    what = kind[-1]
    if what in ("opening", "closing"):
        return f"Ceremony {ceremony} was {'opened' if what == 'opening' else 'closed'}."
    if what == "sheet":
        verb = {"in": "entered", "out": "left"}[given["way"]]
        return f"{named(given['who'])} {verb} the room of ceremony {ceremony}."
    if what == "signature":
        return f"Step {parts[3]} of ceremony {ceremony} was signed by {named(told['seating'])}."
    if what == "exceptions":
        passed = f" passed step {told['step']} with {named(told['seating'])}" if given["pass"] else ""
        return f"Exception {told['exception']} of ceremony {ceremony}{passed}: {given['text']}"
    if what == "safes":
        return f"{named([given['by']])} {'opened' if given['open'] else 'shut'} safe {parts[3]} in ceremony {ceremony}."
    bag = f"Bag {parts[3]} was "
    if what == "seal":
        return f"{bag}sealed with {', '.join(given['items'])} in ceremony {ceremony}."
    if what == "take":
        return f"{bag}taken to the table in ceremony {ceremony}."
    if what == "put":
        to = "safe 1" if given["to"] == "safe1" else f"box {given['to']}"
        return f"{bag}put into {to} in ceremony {ceremony}."
    expect("the kind of a command", "cut", what)
    return f"{bag}cut open in ceremony {ceremony}."


def journal_of(commands):
    """The lines of commands with their answers, each with the ceremony that the command names, if any."""
    names, lines = {}, []

    def named(people):
        return ", ".join(f"{names[who]} ({who})" for who in people)

    for number, (message, answer) in enumerate(commands, 1):
        head, body = re.split(rb"\n\r?\n", message.lstrip(b"\r\n"), maxsplit=1)
        path = head.split()[1].decode().partition("?")[0]
        given, told = json.loads(body), json.loads(answer.rpartition(b"\r\n\r\n")[2])
        if path == "/people":
            names[given["who"]] = given["name"]
        when = given.get("at") or given.get("from") or given.get("day") or DASH
        parts = path.strip("/").split("/")
        of_path = parts[0] == "ceremonies" and len(parts) > 1
        ceremony = int(parts[1]) if of_path else given.get("ceremony", given.get("number"))
        expect("the number", number, told["accepted"])
        lines.append((ceremony, f"{number:6}  {when:20}  {sentence(path, given, told, named)}\n".encode()))
    return lines


def told(program, file, *words):
    """The journal of a file that has a command."""
    return printed(program, "journal", file, *words)


def files(program, room):
    """Each register with a command: its file, and the lines of its journal with their ceremonies."""
    for name, file, commands in filled_files(program, room):
        yield name, file, journal_of(commands)


# The tests

def each_command_a_line(program, room):
    """The journal has a line for each accepted command; with a ceremony, for those that name it. No byte changes."""
    for name, file, lines in files(program, room):
        before = kcr.contents(file)
        expect(f"the journal of {name}", b"".join(line for _, line in lines), told(program, file))
        for asked in {ceremony for ceremony, _ in lines if ceremony} | {9999}:
            expect(f"the journal of {name}, ceremony {asked}",
                   b"".join(line for ceremony, line in lines if ceremony == asked),
                   told(program, file, "--ceremony", asked))
        expect(f"the bytes of {name}", before, kcr.contents(file))


def of_older_versions(program, room):
    """A register of version 1 or 2, which has no withdrawals, has the same journal, and stays of its version."""
    for name, file, lines in files(program, room):
        if any(b"no longer trained" in line for _, line in lines):
            continue
        for version in (2, 1):
            older = kcr.copy(file, room / f"{name}-{version}")
            made_older(older, version)
            before = kcr.contents(older)
            expect(f"{name} of version {version}", b"".join(line for _, line in lines), told(program, older))
            expect(f"the bytes of {name}", before, kcr.contents(older))


def a_row_of_no_register(program, room):
    """Where the text of a row is no command, or nobody has the initials that it names, the lines before it are written,
    and then it is refused."""
    file = room / "register.db"
    stream = kcr.short_ceremony()
    filled(program, file, b"".join(stream))
    whole = told(program, file).splitlines(keepends=True)
    for number in (1, 5, 10):
        changed = kcr.copy(file, room / f"changed-{number}")
        kcr.change(changed, f"UPDATE keys SET command = 'x' WHERE accepted = {number}")
        expect(f"command {number}", (b"".join(whole[:number - 1]), b"refused: 34 disk\n", 1),
               call(program, "journal", "--file", changed))
    nobody = kcr.copy(file, room / "nobody")
    kcr.change(nobody, "DELETE FROM people")
    expect("without people", (b"", b"refused: 34 disk\n", 1), call(program, "journal", "--file", nobody))


TESTS = [each_command_a_line, of_older_versions, a_row_of_no_register, *tests_of("journal")]

if __name__ == "__main__":
    kcr.judge_installed(TESTS, {}, __doc__)
