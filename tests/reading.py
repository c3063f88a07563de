#!/usr/bin/env python3
"""What only reads a register's file, while `serve` takes commands over loopback.

    tests/reading.py PROGRAM [--whole]

A client sends commands to `serve`, one after the other: people enter, come and go, steps are signed, items are sealed
in bags. Meanwhile `print`, `attendance`, `custody`, `audit` and `verify` read the served file, again and again. Each of
them tells the register after one of its commands, by the rules: no earlier one than the last that was answered before
it began, and no later one than the last that was sent before it ended. Afterwards the file has all commands. Some 60
reads are made, with `--whole` a thousand of each kind, of several registers.

The last line is `N passed, M failed`, and the status is 0 if none failed.
"""
import sys

sys.dont_write_bytecode = True  # no files beside these

import functools
import itertools
import pathlib
import threading

import kcr
from kcr import NOTHING_FOUND, SECONDS, Wrong, answer, call, expect, person, post

READS, WHOLE = 12, 1_000  # reads of each kind
ROUNDS = 120  # rounds of a register's ceremony, each of six commands
HEAD = b"Ceremony 61 EAST 2025-02-13 open\nOpened 2025-02-13T20:00:00Z\n"
SAFES = kcr.EMPTY_CUSTODY
SCRIPT = b"step,activity,seats\\n" + b"".join(b"%d,a,CA;IW\\n" % step for step in range(1, ROUNDS + 1))


def moment(second):
    """The moment `second` seconds after 20:00."""
    return b"2025-02-13T%02d:%02d:%02dZ" % (20 + second // 3_600, second // 60 % 60, second % 60)


class Ceremony:
    """The commands of a ceremony, and what is told of it after each of them: the signed steps, the stays, the items on
    the table and the sealed bags."""

    def __init__(self):
        self.commands, self.answers, self.states = [], [], [(0, (), None, 0)]
        self.steps, self.stays, self.loose, self.bags, self.second = 0, [], None, 0, 0
        for who in (b"AA", b"BB"):
            self.add(person(b"p" + who, who, b"Ann Abel"))
        for who, role in ((b"AA", b"CA"), (b"BB", b"IW")):
            self.add(post(b"/people/%s/roles" % who, b"t" + who,
                          b'"role":"%s","from":"2025-01-01","until":"2025-12-31"' % role))
        self.add(post(b"/ceremonies", b"c", b'"number":61,"facility":"EAST","day":"2025-02-13","script":"%s"' % SCRIPT))
        self.add(post(b"/ceremonies/61/opening", b"o", b'"at":"%s"' % moment(0)))
        self.second = 1
        self.stays += [(b"AA", moment(1), b""), (b"BB", moment(1), b"")]
        self.add(post(b"/ceremonies/61/sheet", b"s", b'"way":"in","who":["AA","BB"],"at":"%s"' % moment(1)))
        self.first = len(self.commands)
        for number in range(ROUNDS):
            self.round(number)

    def add(self, command, more=b""):
        """A command that is accepted, with this behind its number, and what is told after it."""
        self.commands.append(command)
        self.answers.append(answer(b"200 OK", b'{"accepted":%d%s}' % (len(self.commands), more)))
        self.states.append((self.steps, tuple(self.stays), self.loose, self.bags))

    def at(self):
        """The next second."""
        self.second += 1
        return moment(self.second)

    def round(self, number):
        """Somebody enters, comes and goes, a step is signed, and an item is put on the table and sealed in a bag."""
        who, item, at = kcr.initials(number), b"ITEM%d" % number, self.at()
        self.add(person(b"p%d" % number, who, b"Bob Berg"))
        self.stays.append((who, at, b""))
        self.add(post(b"/ceremonies/61/sheet", b"i%d" % number, b'"way":"in","who":["%s"],"at":"%s"' % (who, at)))
        self.steps += 1
        self.add(post(b"/ceremonies/61/steps/%d/signature" % self.steps, b"g%d" % number, b'"at":"%s"' % at),
                 b',"seating":["AA","BB"],"step":%d' % self.steps)
        self.loose = item
        self.add(post(b"/items", b"a%d" % number, b'"ceremony":61,"item":"%s","at":"%s"' % (item, self.at())))
        self.loose, self.bags = None, self.bags + 1
        self.add(post(b"/ceremonies/61/bags/BB%08d/seal" % number, b"b%d" % number,
                      b'"items":["%s"],"at":"%s"' % (item, self.at())))
        at = self.at()
        self.stays[-1] = (who, self.stays[-1][1], at)
        self.add(post(b"/ceremonies/61/sheet", b"u%d" % number, b'"way":"out","who":["%s"],"at":"%s"' % (who, at)))

    def printed(self, count):
        """The annotated script after N commands."""
        steps, second = self.states[count][0], 2
        lines = [HEAD]
        for step in range(1, ROUNDS + 1):
            if step <= steps:
                lines.append(b"%d signed %s a\n  CA AA\n  IW BB\n" % (step, moment(second + 4 * (step - 1))))
            else:
                lines.append(b"%d open a\n  seats CA;IW\n" % step)
        return b"".join(lines)

    def attended(self, count):
        """The attendance after `count` commands."""
        names = {b"AA": b"Ann Abel", b"BB": b"Ann Abel"}
        return b"who,name,in,out\n" + b"".join(b"%s,%s,%s,%s\n" % (who, names.get(who, b"Bob Berg"), since, until)
                                               for who, since, until in self.states[count][1])

    def kept(self, count):
        """Custody after `count` commands."""
        _, _, loose, bags = self.states[count]
        sealed = b"".join(b"BB%08d table EAST\n  ITEM%d\n" % (bag, bag) for bag in range(bags))
        return SAFES + sealed + (b"loose EAST %s\n" % loose if loose else b"")

    def audited(self, _):
        """An audit finds nothing."""
        return NOTHING_FOUND[0]

    def verified(self, count):
        """A verification after `count` commands."""
        return b"verified: %d commands\n" % count


KINDS = [(("print", "--ceremony", "61"), Ceremony.printed), (("attendance", "--ceremony", "61"), Ceremony.attended),
         (("custody",), Ceremony.kept), (("audit",), Ceremony.audited), (("verify",), Ceremony.verified)]


class Writer:
    """A client that sends the commands of a ceremony over one connection, each after the answer to the one before."""

    def __init__(self, ceremony, port):
        self.ceremony, self.port, self.sent, self.answered, self.fault = ceremony, port, ceremony.first, ceremony.first, None
        self.thread = threading.Thread(target=self.write)

    def write(self):
        """Sends them all."""
        try:
            with kcr.connect(self.port) as peer:
                for command, wanted in list(zip(self.ceremony.commands, self.ceremony.answers))[self.ceremony.first:]:
                    self.sent += 1
                    peer.sendall(command)
                    got = b""
                    while len(got) < len(wanted) and (piece := peer.recv(65_536)):
                        got += piece
                    expect(f"the answer to command {self.sent}", wanted, got)
                    self.answered += 1
        except (Wrong, OSError) as fault:
            self.fault = fault


def read(program, file, ceremony, writer, words, told):
    """One read: what is told is the register after one of the commands that were there meanwhile."""
    least = writer.answered
    output, faults, status = call(program, *words, "--file", file)
    most = writer.sent
    expect(f"{' '.join(words)} of {least} to {most} commands", (b"", 0), (faults, status))
    if not any(output == told(ceremony, count) for count in range(least, most + 1)):
        raise Wrong(f"{' '.join(words)} tells no register of {least} to {most} commands: {output[-200:]!r}")
    return most > least


def beside(program, room, ceremony, kinds):
    """Reads of these kinds, of one served register, until its commands or the kinds are used up: how many there were,
    and while how many a command came in."""
    file, reads, moved = room / "register", 0, 0
    before = b"".join(ceremony.commands[:ceremony.first])
    expect("the first commands", (b"".join(ceremony.answers[:ceremony.first]), b"", 0),
           call(program, "run", "--file", file, stream=before))
    with kcr.Server(program, 1, file) as server:
        writer = Writer(ceremony, server.port)
        writer.thread.start()
        while writer.thread.is_alive():
            kind = next(kinds, None)
            if kind is None:
                break
            moved += read(program, file, ceremony, writer, *kind)
            reads += 1
        writer.thread.join(SECONDS)
        if writer.fault:
            raise writer.fault
        expect("the end of serve", (b"", b"", 0), server.end())
    for words, told in KINDS:
        expect(words[0], (told(ceremony, len(ceremony.commands)), b"", 0), call(program, *words, "--file", file))
    return reads, moved


def reads_beside_a_writer(program, count, room):
    """What is read while commands come in is the register after one of them."""
    ceremony, reads, moved = Ceremony(), 0, 0
    kinds = itertools.chain.from_iterable(itertools.repeat(KINDS, count))
    for number in itertools.count():
        own = room / str(number)
        own.mkdir()
        more, changed = beside(program, own, ceremony, kinds)
        reads, moved = reads + more, moved + changed
        if reads >= count * len(KINDS):
            break
    print(f"    {reads} reads of {number + 1} registers; a command came in during {moved} of them")
    expect("commands came in during reads", True, moved >= reads // 10)


def main():
    words = [word for word in sys.argv[1:] if word != "--whole"]
    if len(words) != 1:
        sys.exit(__doc__)
    count = WHOLE if "--whole" in sys.argv else READS
    test = functools.partial(reads_beside_a_writer, str(pathlib.Path(words[0]).resolve()), count)
    kcr.judge([(reads_beside_a_writer.__name__, reads_beside_a_writer.__doc__, test)])


if __name__ == "__main__":
    main()
