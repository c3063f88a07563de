#!/usr/bin/env python3
"""A register's file and its log as one file: `kcr pack`.

    tests/pack.py PROGRAM [NAME ..]

Shown are, over each kept stream of `files`, of each version: that the packed file has the same rows and is told to be
the register of the same commands, that no log lies beside it, that it takes further commands, and that the files it was
made from keep every byte. Then that it can be taken while commands come in, where it is refused, and that nothing is
made then.

The last line is `N passed, M failed`, and the status is 0 where none failed.
"""
import sys

sys.dont_write_bytecode = True  # no files beside these

import os

import kcr
from feed import filled
from kcr import call, expect
from program import NAMELESS, disk, dump, made_older, noted


def packed(program, file, into, count):
    """Packs a file, and sees that no byte of it and of its log changes, and that nothing else is made."""
    before, beside = kcr.contents(file), set(os.listdir(into.parent))
    expect(f"pack {file.name}", (b"packed: %d commands\n" % count, b"", 0),
           call(program, "pack", "--file", file, "--into", into))
    expect(f"the bytes of {file.name}", before, kcr.contents(file))
    expect("what was made", beside | {into.name}, set(os.listdir(into.parent)))
    return into


def refused(program, file, into, told):
    """Sees that a pack is refused with these lines and makes nothing, and no file is changed."""
    before = {path: path.read_bytes() for path in into.parent.iterdir() if path.is_file()}
    expect(f"pack {file.name} into {into.name}", told, call(program, "pack", "--file", file, "--into", into))
    after = {path: path.read_bytes() for path in into.parent.iterdir() if path.is_file()}
    expect("the files", before, after)


# The tests

def the_same_register(program, room):
    """The packed file is the register, of whichever version it is, and takes its commands again and further ones."""
    for folder in kcr.folders():
        tables, commands = kcr.kept_tables(folder), kcr.commands(folder)
        count = len(commands)
        if count == 0:
            continue
        file = room / folder.name
        filled(program, file, kcr.kept(folder, "requests"))
        into = packed(program, file, room / f"{folder.name}-packed", count)
        kcr.stored(into, tables)
        expect("verify", (b"verified: %d commands\n" % count, b"", 0), call(program, "verify", "--file", into))
        expect("export", call(program, "export", "--file", file), call(program, "export", "--file", into))
        refused(program, file, into, (b"", b"into: filled\n", 1))
        answers = filled(program, into, b"".join(message for message, _ in commands))
        expect("its commands again", b"".join(answer for _, answer in commands), answers)
        expect("one more", kcr.accepted(count + 1), filled(program, into, kcr.person(b"one-more", b"QQQQ", b"Q")))
        for version in (1, 2) if not tables["withdrawals"] else ():
            older = kcr.copy(file, room / f"{folder.name}-{version}")
            made_older(older, version)
            into = packed(program, older, room / f"{folder.name}-{version}-packed", count)
            expect(f"what version {version} holds", dump(older), dump(into))
            expect("verify", (b"verified: %d commands\n" % count, b"", 0), call(program, "verify", "--file", into))


def an_empty_place(program, room):
    """A file without a byte is filled, also where a link leads."""
    file, empty, link = room / "register.db", room / "empty", room / "link"
    filled(program, file, b"".join(kcr.short_ceremony()))
    empty.touch()
    packed(program, file, empty, 10)
    expect("the rows", kcr.rows_of(file), kcr.rows_of(empty))
    (room / "target").touch()
    link.symlink_to("target")
    packed(program, file, link, 10)
    expect("the rows by the link", kcr.rows_of(file), kcr.rows_of(room / "target"))


def no_registers(program, room):
    """What is no register, has no command, or has a damaged log is refused as an opening refuses it, and nothing is
    made."""
    file, into, text, other, empty = (room / name for name in ("register.db", "into", "text", "other", "empty"))
    expect("without a file", (b"", NAMELESS, 1), call(program, "pack", "--into", into))
    refused(program, room / "gone", into, disk("missing", room / "gone"))
    filled(program, empty, b"")
    refused(program, empty, into, (b"", noted(empty, "has no command"), 1))
    text.write_bytes(b"no database\n" * 100)
    refused(program, text, into, disk("reading", text))
    kcr.change(other, "CREATE TABLE t (a)")
    refused(program, other, into, (b"", b"open: foreign\n", 1))
    refused(program, room, into, disk("opening", room))
    filled(program, file, b"".join(kcr.short_ceremony()))
    log = kcr.log_of(file)
    held = bytearray(log.read_bytes())
    held[32 + 24] ^= 0xff
    log.write_bytes(held)
    output, faults, status = call(program, "pack", "--file", file, "--into", into)
    expect("a damaged log", (b"", True, 1), (output, faults.startswith(b"open: disk\nlog: wrong from frame 1,"), status))
    expect("whether a file was made", False, into.exists())


def no_places(program, room):
    """Where the new file has something, another process has it, or it cannot be made, nothing is changed."""
    file, held = room / "register.db", room / "held"
    filled(program, file, b"".join(kcr.short_ceremony()))
    (room / "one-byte").write_bytes(b"\0")
    refused(program, file, room / "one-byte", (b"", b"into: filled\n", 1))
    refused(program, file, file, (b"", b"into: filled\n", 1))
    (room / "logged").touch()
    (room / "logged-wal").write_bytes(b"\0")
    refused(program, file, room / "logged", (b"", b"into: filled\n", 1))
    (room / "lone-wal").write_bytes(b"\0")
    refused(program, file, room / "lone", (b"", b"into: filled\n", 1))
    (room / "hot").touch()
    (room / "hot-journal").write_bytes(bytes.fromhex("d9d505f920a163d7") + bytes(504))
    refused(program, file, room / "hot", disk("opening", room / "hot", "into"))
    (room / "unlogged-wal").mkdir()  # so that a file is made and no log
    refused(program, file, room / "unlogged", disk("opening", room / "unlogged", "into"))
    told = call(program, "pack", "--file", file, "--into", room / "none" / "into")
    expect("no folder", disk("opening", room / "none" / "into", "into"), told)
    expect("a folder", disk("opening", room, "into"), call(program, "pack", "--file", file, "--into", room))
    with kcr.Server(program, 1, held):
        expect("one that is served", disk("locking", held, "into"),
               call(program, "pack", "--file", file, "--into", held))


def while_it_serves(program, room):
    """What is packed while commands come in is the register after one of them."""
    file, count = room / "register.db", 200
    commands = [kcr.person(b"k%d" % n, kcr.initials(n), b"Somebody") for n in range(count)]
    filled(program, file, commands[0])
    with kcr.Server(program, count, file) as server:
        sender = kcr.sender(server.port, commands)
        taken, before = 0, 1
        while sender.is_alive():
            into = room / f"packed-{taken}"
            taken += 1
            output, faults, status = call(program, "pack", "--file", file, "--into", into)
            found = kcr.commands_in(into)
            expect("pack", (b"packed: %d commands\n" % found, b"", 0), (output, faults, status))
            expect("that commands stay", True, found >= before)
            before = found
            expect("verify", (b"verified: %d commands\n" % found, b"", 0), call(program, "verify", "--file", into))
            expect("export", (b"".join(commands[:found]), b"", 0), call(program, "export", "--file", into))
        sender.join(kcr.SECONDS)


TESTS = [the_same_register, an_empty_place, no_registers, no_places, while_it_serves]

if __name__ == "__main__":
    kcr.judge_installed(TESTS, {}, __doc__)
