#!/usr/bin/env python3
"""The program over files that were damaged: bytes of the log are other ones, the log is cut or gone or another file's, or
the file beside a log is gone.

    tests/damage.py PROGRAM [--whole] [NAME ..]

A log that was damaged after it was safe is refused with `open: disk` and a second line, which tells from which frame on
and how many transactions end behind it, and every byte stays as it was. Shown is that for registers of 1, 20 and 200
commands: the first, the middle and the last byte of each frame of the log is changed, then each bit of the log's head,
then bits by a seed; and the file is removed or cut to no bytes. After each either the program refuses it so, or the
register has all commands, or all but the last, whose transaction a stop can have left in part.

Then 2,000 files are damaged by a seed, in these ways and in those that nothing in a file can tell. A log that is cut
or gone is an earlier register: that of the transactions whose frames are left. A log of another register or of another
day is a register that there was, or a mixture, which `verify` finds. Only each tenth of these files is made, and of a
long log not each frame is changed; with `--whole` all are. With names only the tests with these names run.

Blocks of 512 and of 4,096 bytes are wrong too, as a disk damages them: zeros, 0xff, or the block before, at 200 places
of logs of 1, 30, 200 and 2,010 commands, the longer ones of which were emptied meanwhile. Fewer than 1 in 20 of them
open as a register that lost more than its last command, and none whose start is zeroed. Each tenth place is tried; with
`--whole` each is. At last runs stop at each call of the file or its log, one that makes a register and one that empties
a log, and of what was not yet safe each sector is there or not: none of what they leave is refused.

The last line is `N passed, M failed`, and the status is 0 if none failed.
"""
import sys

sys.dont_write_bytecode = True  # no files beside these

import contextlib
import functools
import pathlib
import random
import re
import sqlite3
from dataclasses import dataclass

import kcr
from kcr import Wrong, call, expect, log_of, opened, rows_in

HEAD = 32  # the bytes of a log's head
FRAME = 24  # the bytes of a frame before its page
SIZES = (1, 20, 200)  # the commands of the registers
FEW = 150  # frames of a log, at most, that are changed one by one
BITS = 200  # bits that a seed picks in each register
DAMAGED = 2_000  # files that a seed damages
STRIDE = 10  # of these only each tenth is made, but with `--whole`
GROWN = (1, 30, 200, 2_010)  # the commands of the registers whose blocks are damaged
BLOCKS = (512, 4_096)  # the bytes that a disk damages at once
PLACES = 200  # blocks of each register that are damaged, in each way
BOUND = 20  # fewer than 1 in 20 damaged blocks loses more than the last command in silence
STARTS = (1, 2, 4, 8, 16, 24, 32, 41, 512, 4_096)  # bytes at the start of a log that are zeroed
SECTOR = 512  # the bytes that a disk writes whole
CUTS = 3  # choices of the sectors that are there, for each stop
LINES = re.compile(rb"open: disk\nlog: (wrong head|wrong from frame [1-9][0-9]*|no file), commits [1-9][0-9]*\n")


class Register:
    """A register of `count` commands: the bytes of its file and log, the frames in use, and its rows with all commands
    and with all but the last."""

    def __init__(self, program, room, count, name=b"Ann Abel"):
        self.program, self.file, self.rows, self.count = program, room / "register", [], count
        commands = [kcr.person(b"k%d" % number, kcr.initials(number), name) for number in range(count)]
        for part in (commands[:-1], commands[-1:]):
            self.take(part)
            self.rows.append(self.found())
        self.bytes, self.log = kcr.contents(self.file)
        self.page = int.from_bytes(self.log[8:12], "big")
        self.frames = 0
        while self.log[self.at(self.frames) + 8:][:8] == self.log[16:24]:
            self.frames += 1
        expect("the log has frames", True, self.frames > 0)

    def take(self, commands):
        """Gives it these commands."""
        told = call(self.program, "run", "--file", self.file, stream=b"".join(commands))
        expect("the end of a run", (b"", 0), told[1:])

    def at(self, frame):
        """Where a frame begins, from 0."""
        return HEAD + frame * (FRAME + self.page)

    def found(self):
        """The rows of the file, as sqlite3 reads them."""
        with opened(self.file) as database:
            return rows_in(database)

    def put(self, log, held):
        """Puts the file and its log; of these what is None is not there."""
        for path, text in ((self.file, held), (log_of(self.file), log)):
            path.unlink(missing_ok=True)
            if text is not None:
                path.write_bytes(text)

    def tried(self, what, log, held, is_refused=None):
        """Opens the file beside a log; whether it was refused, as it is to be where that is told."""
        self.put(log, held)
        before = kcr.contents(self.file)
        seen = call(self.program, "verify", "--file", self.file)
        expect(f"{what}: the bytes after a verification", before, kcr.contents(self.file))
        output, faults, status = call(self.program, "run", "--file", self.file)
        refused = status == 1 and LINES.fullmatch(faults) is not None
        expect(f"{what}: that a verification refuses it so too, {seen!r}", refused, seen == (b"", faults, 1))
        if is_refused is not None:
            expect(f"{what}: that it is refused, {faults!r}", is_refused, refused)
        if refused:
            expect(f"{what}: the output", b"", output)
            expect(f"{what}: the bytes of both files", before, kcr.contents(self.file))
            return True
        expect(f"{what}: the end", (b"", b"", 0), (output, faults, status))
        if self.found() not in self.rows:
            raise Wrong(f"{what}: the register has neither all commands nor all but the last")
        return False

    def changed(self, place, value):
        """The log with another byte at a place."""
        return self.log[:place] + bytes([value]) + self.log[place + 1:]

    def front(self, count):
        """Its rows after N commands."""
        whole = self.rows[-1]
        return {**whole, "people": whole["people"][:count], "keys": [row for row in whole["keys"] if row[1] <= count]}

    def left(self, length):
        """How many commands it has by the first `length` bytes of the log: all but those whose last frame is not among
        them."""
        ends = [frame for frame in range(self.frames) if self.log[self.at(frame) + 4:][:4] != bytes(4)]
        return max(0, self.count - sum(self.at(frame + 1) > length for frame in ends))


def registers(program, room):
    """A register of each size, in a folder of its own."""
    for count in SIZES:
        own = room / str(count)
        own.mkdir()
        yield count, Register(program, own, count)


def frames_are_changed(program, room, whole=False):
    """The first, the middle and the last byte of each frame is another one."""
    for count, register in registers(program, room):
        expect("the log as it was: refused", False, register.tried("the log as it was", register.log, register.bytes))
        length, refused = FRAME + register.page, 0
        for frame in range(0, register.frames, 1 if whole else 1 + register.frames // FEW):
            for place in (0, length // 2, length - 1):
                place += register.at(frame)
                log = register.changed(place, register.log[place] ^ 0xff)
                refused += register.tried(f"{count} commands, byte {place}", log, register.bytes)
        print(f"    {count} commands, {register.frames} frames: {refused} changes refused")


def heads_are_changed(program, room):
    """Each bit of the log's head is another one."""
    for count, register in registers(program, room):
        for bit in range(8 * HEAD):
            log = register.changed(bit // 8, register.log[bit // 8] ^ (1 << bit % 8))
            register.tried(f"{count} commands, bit {bit} of the head", log, register.bytes, True)


def bits_are_changed(program, room):
    """Bits of the frames, picked by a seed, are other ones."""
    picked = random.Random(52)
    for count, register in registers(program, room):
        for _ in range(BITS):
            place, bit = picked.randrange(HEAD, register.at(register.frames)), picked.randrange(8)
            if (place - HEAD) % (FRAME + register.page) == 8 and register.log[place] ^ (1 << bit) == 0:
                continue  # so a frame is marked that is not to be read yet
            log = register.changed(place, register.log[place] ^ (1 << bit))
            register.tried(f"{count} commands, bit {bit} of byte {place}", log, register.bytes)


def files_are_missing(program, room):
    """The file is removed, or cut to no bytes, and its log is not."""
    for count, register in registers(program, room):
        for held in (None, b""):
            register.tried(f"{count} commands, the file {held!r}", register.log, held, True)


# Files that a seed damages

@dataclass
class Damage:
    """A damaged register: its log and its file, after how many commands it may open as the register that it was, whether
    it may be refused, and other registers, of which it may be each or a mixture."""
    log: bytes
    held: bytes | None
    fronts: tuple = ()
    refused: bool = False
    others: tuple = ()


def frame_changed(register, picked, _):
    """A byte of a frame: the first, the middle, the last or any."""
    length = FRAME + register.page
    place = register.at(picked.randrange(register.frames)) + picked.choice(
        (0, length // 2, length - 1, picked.randrange(length)))
    others = set(range(256)) - {register.log[place]}
    if (place - HEAD) % length == 8:
        others -= {0}  # so a frame is marked that is not to be read yet
    return Damage(register.changed(place, picked.choice(sorted(others))), register.bytes,
                  (register.count - 1, register.count), True)


def head_changed(register, picked, _):
    """A byte of the log's head."""
    place = picked.randrange(HEAD)
    return Damage(register.changed(place, register.log[place] ^ picked.randrange(1, 256)), register.bytes, refused=True)


def file_gone(register, picked, _):
    """The file is removed, or cut to no bytes."""
    return Damage(register.log, picked.choice((None, b"")), refused=True)


def cut(register, length):
    """The log without its end."""
    return Damage(register.log[:length], register.bytes, (register.left(length),))


def cut_at_a_frame(register, picked, _):
    """The log is cut at a frame."""
    return cut(register, register.at(picked.randrange(register.frames)))


def cut_within(register, picked, _):
    """The log is cut anywhere: within its head, or within a frame."""
    return cut(register, picked.randrange(register.at(register.frames)))


def log_gone(register, picked, _):
    """The log is removed, or cut to no bytes."""
    return Damage(picked.choice((None, b"")), register.bytes, (register.left(0),))


def log_of_another(register, picked, others):
    """The log is that of another register, or the file is."""
    other = picked.choice(others)
    log, held = picked.choice(((other.log, register.bytes), (register.log, other.bytes)))
    return Damage(log, held, (), True, (register, other))


KINDS = [frame_changed, head_changed, file_gone, cut_at_a_frame, cut_within, log_gone, log_of_another]


def whole_commands(output):
    """How many commands a verification found to be whole, or None."""
    found = re.fullmatch(rb"verified: ([0-9]+) commands\n", output)
    return int(found[1]) if found else None


def damaged(register, what, damage):
    """Opens a damaged register; whether it was refused, found to be a mixture, or opened as the register that it was."""
    register.put(damage.log, damage.held)
    before = kcr.contents(register.file)
    output, faults, status = call(register.program, "verify", "--file", register.file)
    expect(f"{what}: the bytes after a verification", before, kcr.contents(register.file))
    if status == 1 and LINES.fullmatch(faults):
        expect(f"{what}: whether it may be refused, {faults!r}", True, damage.refused)
        expect(f"{what}: a run", (b"", faults, 1), call(register.program, "run", "--file", register.file))
        expect(f"{what}: the bytes after a run", before, kcr.contents(register.file))
        return "refused"
    count = whole_commands(output)
    if status == 1 and damage.others and (output, faults) != (b"", b"note: %s has no command\n" % bytes(register.file)):
        return "found"
    expect(f"{what}: the end of a verification, {output!r}, {faults!r}", 1 if count is None else 0, status)
    run = call(register.program, "run", "--file", register.file)
    expect(f"{what}: a run", (b"", b"", 0), run)
    rows, count = register.found(), count or 0
    if damage.others:
        expect(f"{what}: it is a register that there was", True, any(
            rows == other.front(count) for other in damage.others))
    else:
        expect(f"{what}: the number of its commands", True, count in damage.fronts)
        expect(f"{what}: its rows", register.front(count), rows)
    return "opened"


def another_day(program, room, register):
    """The same register on another day: its log was played into the file, as sqlite3 does, and it took more."""
    room.mkdir()
    other = Register(program, room, register.count)
    with contextlib.closing(sqlite3.connect(other.file)) as database:
        database.execute("SELECT count(*) FROM keys").fetchall()
    other.take([kcr.person(b"more%d" % number, kcr.initials(number), b"Bob Berg") for number in range(1_000, 1_005)])
    other.bytes, other.log = kcr.contents(other.file)
    other.rows, other.count = [other.found()], register.count + 5
    return other


def files_by_a_seed(program, room, whole=False):
    """Two thousand files that a seed damages, in each way: each is refused and left as it is, or opens as the register
    that it was, with the commands that are left. A mixture of two is never verified."""
    made = dict(registers(program, room))
    (room / "another").mkdir()
    strange = Register(program, room / "another", 30, b"Bob Berg")
    others = {count: (strange, another_day(program, room / f"day-{count}", register)) for count, register in made.items()}
    told = {}
    for number in range(0, DAMAGED, 1 if whole else STRIDE):
        picked = random.Random(f"damage {number}")
        kind, count = picked.choice(KINDS), picked.choice(SIZES)
        seen = damaged(made[count], f"file {number}, {count} commands: {kind.__doc__}",
                       kind(made[count], picked, others[count]))
        told.setdefault(kind.__name__, []).append(seen)
    for name, seen in sorted(told.items()):
        print(f"    {name}: " + ", ".join(f"{seen.count(kind)} {kind}" for kind in sorted(set(seen))))


def foreign_log(program, room):
    """A foreign database whose table lies in its log alone is refused, also if that log is damaged; both files stay."""
    with contextlib.closing(sqlite3.connect(room / "open")) as database:
        database.execute("PRAGMA journal_mode = wal")
        for statement in ("CREATE TABLE t (a INT)", "INSERT INTO t VALUES (1)", "INSERT INTO t VALUES (2)"):
            database.execute(statement)
            database.commit()
        kcr.copy(room / "open", room / "copied")
    for is_damaged in (False, True):
        log = log_of(room / "copied")
        if is_damaged:
            log.write_bytes(log.read_bytes()[:100] + b"\xff" + log.read_bytes()[101:])
        before = kcr.contents(room / "copied")
        output, faults, status = call(program, "run", "--file", room / "copied")
        expect("the line", is_damaged, LINES.fullmatch(faults) is not None)
        expect("the end", (b"", is_damaged or faults == b"open: foreign\n", 1), (output, True, status))
        expect("the bytes of both files", before, kcr.contents(room / "copied"))


# Blocks, and stops

FILLS = {
    "zeros": lambda log, at, size: bytes(size),
    "0xff": lambda log, at, size: b"\xff" * size,
    "the block before": lambda log, at, size: log[at - size:at] if at else log[:size],
}


def commands_left(program, file):
    """How many commands a register opens with, or None if it is refused for its log."""
    output, faults, status = call(program, "journal", "--file", file)
    if status == 1 and LINES.fullmatch(faults):
        return None
    if (status, faults) != (0, b"") and not faults.startswith(b"note: "):
        raise Wrong(f"a journal ends so: {faults!r}, {status}")
    return output.count(b"\n")


def grown(program, file, count, at_once=True):
    """A register of `count` commands, taken at once or each by a run of its own: its file, its log, and how much of
    that is in use."""
    commands = [kcr.person(b"k%d" % number, kcr.initials(number), b"Ann Abel") for number in range(count)]
    for stream in [b"".join(commands)] if at_once else commands:
        expect("the end of a run", (b"", 0), call(program, "run", "--file", file, stream=stream)[1:])
    held, log = kcr.contents(file)
    length, end = FRAME + int.from_bytes(log[8:12], "big"), HEAD
    while log[end + 8:end + 16] == log[16:24]:
        end += length
    return held, log, end


def block_damaged(program, file, held, log, at, text):
    """How many commands a register opens with whose log has other bytes at a place, or None if it is refused."""
    file.write_bytes(held)
    log_of(file).write_bytes(log[:at] + text + log[at + len(text):])
    before = kcr.contents(file)
    left = commands_left(program, file)
    expect("the bytes of both files", before, kcr.contents(file))
    return left


def told_of(left, count):
    """What came of a damage, by how many commands are left of `count`."""
    return "refused" if left is None else "whole" if left == count else "the last lost" if left == count - 1 else "LOST"


def blocks_are_damaged(program, room, whole=False):
    """A block of the log is wrong: fewer than 1 in 20 lose more than the last command in silence, and none at the
    start."""
    found = {}
    for count, at_once in [(count, True) for count in GROWN] + [(30, False)]:
        held, log, end = grown(program, room / f"grown-{count}-{at_once}", count, at_once)
        expect(f"{count} commands as they are", count, block_damaged(program, room / "tried", held, log, 0, b""))
        for size in BLOCKS:
            picked = random.Random(f"blocks of {size} bytes, {count}")
            places = sorted(picked.sample(range(end // size), min(PLACES, end // size)))
            for fill, made in FILLS.items():
                for place in places if whole else places[::STRIDE]:
                    text = made(log, place * size, size)
                    if text == log[place * size:][:size]:
                        continue
                    told = told_of(block_damaged(program, room / "tried", held, log, place * size, text), count)
                    expect(f"{count} commands, block {place} of {size} bytes: {fill}, {told}", True,
                           place > 0 or told != "LOST")
                    found.setdefault(f"{size} bytes, {fill}", []).append(told)
    for name, seen in found.items():
        print(f"    {name}: " + ", ".join(f"{seen.count(told)} {told}" for told in sorted(set(seen))))
    seen = sum(found.values(), [])
    expect(f"fewer than 1 in {BOUND} of {len(seen)} lose more than the last command, {seen.count('LOST')}", True,
           BOUND * seen.count("LOST") < len(seen))


def starts_are_zeroed(program, room):
    """The first bytes of a log are zeroed: it is refused."""
    for count in GROWN:
        held, log, _ = grown(program, room / f"grown-{count}", count)
        for length in STARTS:
            expect(f"{count} commands, {length} bytes", None,
                   block_damaged(program, room / "tried", held, log, 0, bytes(length)))


def cut_by_sectors(safe, tried, picked):
    """What a machine that stops leaves of a file: of each sector what was safe or what was written, and no more than
    some length between the two."""
    longest = max(len(safe), len(tried))
    safe, tried, end = safe.ljust(longest, b"\0"), tried.ljust(longest, b"\0"), picked.choice((len(safe), len(tried)))
    text = b"".join(picked.choice((safe, tried))[at:at + SECTOR] for at in range(0, longest, SECTOR))
    return text[:picked.choice((end, longest))]


def stopped_at(program, library, room, base, commands, which, calls):
    """Stops a run after `calls` calls of the file or its log. For each choice of the sectors: how many commands were
    answered, and how many are left, or None if the log is refused. At last None if it came to no stop."""
    tried, left = room / "tried", room / "left"
    for file in (tried, room / "tried-safe"):
        for path, text in zip((file, log_of(file)), base):
            path.write_bytes(text)
    what = {"REGISTER": str(tried), "CALLS": str(calls)} | ({"LOG": "1"} if which == "log" else {})
    (output, *_), is_stopped = kcr.faulty(program, library, what, "run", "--file", tried, stream=b"".join(commands))
    answered = output.count(b'{"accepted":')
    safe, written = kcr.contents(room / "tried-safe"), kcr.contents(tried)
    for seed in range(CUTS):
        picked = random.Random(f"{which} {calls} {seed}")
        for path, one, other in zip((left, log_of(left)), safe, written):
            path.write_bytes(cut_by_sectors(one or b"", other or b"", picked))
        yield answered, commands_left(program, left)
    if not is_stopped:
        yield None


def stops_lose_sectors(program, room, whole=False):
    """A run that makes a register, or that empties a log, stops, and of what was not safe each sector is there or not:
    none of what is left is refused, and all commands that were answered are there."""
    with kcr.faults() as library:
        if library is None:
            return kcr.leave_out("C compiler", "stops_lose_sectors")
        for count, more, stride in ((0, 3, 1), (190, 6, 1 if whole else 60)):
            base = grown(program, room / f"grown-{count}", count)[:2] if count else (b"", b"")
            commands = [kcr.person(b"m%d" % number, kcr.initials(number), b"Bob Berg")
                        for number in range(1_000, 1_000 + more)]
            for which in ("database", "log"):
                images, calls = 0, 0
                while True:
                    seen = list(stopped_at(program, library, room, base, commands, which, calls))
                    for answered, left in seen[:CUTS]:
                        expect(f"{count} commands, the {which} stopped after {calls} calls: {answered} answered, "
                               f"left {left}", True, left is not None and answered <= left - count <= answered + 1)
                    images += CUTS
                    if seen[-1] is None:
                        break
                    calls += stride
                print(f"    {count} commands and {more} more: the {which} stopped at {calls} calls, {images} images")
                if count:
                    emptied = log_of(room / "tried").read_bytes()[16:24] != base[1][16:24]
                    expect("the log was emptied meanwhile", True, emptied)


TESTS = [frames_are_changed, heads_are_changed, bits_are_changed, files_are_missing, files_by_a_seed, foreign_log,
         blocks_are_damaged, starts_are_zeroed, stops_lose_sectors]
WITH_WHOLE = (frames_are_changed, files_by_a_seed, blocks_are_damaged, stops_lose_sectors)


def main():
    words = [word for word in sys.argv[1:] if word != "--whole"]
    if not words:
        sys.exit(__doc__)
    program, names, whole = str(pathlib.Path(words[0]).resolve()), words[1:], "--whole" in sys.argv
    kcr.judge([(test.__name__, test.__doc__,
                functools.partial(test, program, **({"whole": True} if whole and test in WITH_WHOLE else {})))
               for test in TESTS if not names or test.__name__ in names])


if __name__ == "__main__":
    main()
