#!/usr/bin/env python3
"""The program out of memory: one of its requests for memory is refused, each in turn, or two of them.

    tests/memory.py PROGRAM [--whole] [NAME ..]

A library that is loaded before the C library (`faults.c`) refuses the Nth request for memory of a run, for N from 1
until a run meets no refusal. STRIDES has the steps of each test, and WHOLE those with `--whole`. The opening does not
read the stream, so it is the same in each run over memory and in each run over a new file: one test over memory refuses
all of its requests, and with `--whole` one over a file. Over memory no other request is left out, and none of a report.

The streams play a ceremony: a short one with questions and reports at its end, and five cases (a person is entered and
listed, two sign a step, an exception passes a step, sheet rows come out of order, a bag is cut). A request that meets a
refusal gets exactly the bytes of refusal 33, and all others are answered as in the stream without it; or the program
ends with the line `fault: memory` after the answers so far, or with `open: memory` before any. Over a file the same
holds. The file then has the rows of what was answered and no others, the audit finds nothing, and accepted commands get
their answers again. Two refusals in one run have no other effects. A report or an audit of a file is written whole, or
a prefix of it and then the line `refused: 33 memory`, or one of those two lines; the file does not change. After `open:
memory` a new file has no table, and a register of any version is as it was. In too little address space a task over a
copy of files says that memory ran out, and never that the disk failed. With names only the tests with these names run.

The last line is `N passed, M failed`, and the status is 0 if none failed. Without a C compiler nothing is tested, and
it says so.
"""
import sys

sys.dont_write_bytecode = True  # no files beside these

import pathlib
import random
import resource

import kcr
from kcr import Wrong, call, expect

# the step from one N to the next during the opening, and after it; in `little_space`, from one number of MB to the next
STRIDES = {"over_memory": (1, 1), "over_a_file": (601, 29), "examples_over_memory": (601, 1),
           "examples_over_a_file": (601, 41), "reports": (601, 1), "two_refusals": (601, 601), "openings": (61, 61),
           "little_space": (2, 2)}
WHOLE = {"over_memory": (1, 1), "over_a_file": (1, 1), "examples_over_memory": (601, 1),
         "examples_over_a_file": (601, 1), "reports": (1, 1), "two_refusals": (601, 601), "openings": (1, 1),
         "little_space": (1, 1)}
LACKING = {1: ("withdrawals", "stays"), 2: ("withdrawals",), 3: ()}  # the tables that a version does not have
EMPTY = ["BEGIN TRANSACTION;", "COMMIT;"]  # a database without tables, as sqlite3 dumps it
EXAMPLES = ["entered-and-listed", "signed-by-two", "step-out-of-order", "presence-at-the-moment", "serial-used-once"]
PAIRS_OVER_MEMORY, PAIRS_OVER_A_FILE = 600, 60
REFUSAL = kcr.answer(b"503 Service Unavailable", b'{"number":33,"refusal":"memory"}')
MEMORY = (b"fault: memory\n", 1)
UNOPENED = (b"open: memory\n", 1)
BEFORE = ((b"", *MEMORY), (b"", *UNOPENED))  # what the program may write before the first answer
REFUSED = (b"refused: 33 memory\n", 1)
STREAM = kcr.short_ceremony() + [kcr.request(b"GET", path) for path in (
    b"/people", b"/custodians/2025-02-13", b"/bags/BB51184287", b"/ceremonies/61/room/2025-02-13T20:12:00Z",
    b"/ceremonies/61/script", b"/ceremonies/61/attendance.csv", b"/custody")]
REPORTS = [("custody",), ("print", "--ceremony", "61"), ("attendance", "--ceremony", "61"), ("journal",), ("audit",)]


# The runs

class Runs:
    """Runs of the program with these words, in which the Nth request for memory is refused."""

    def __init__(self, program, library, *words, stream=b"", before=lambda: None):
        self.program, self.library, self.words = program, library, words
        self.stream, self.before = stream, before

    def refused(self, number, **again):
        """What the program writes if this request for memory is refused, and whether there was such a request."""
        self.before()
        return kcr.faulty(self.program, self.library, {"REFUSE": str(number), **again}, *self.words, stream=self.stream)

    def swept(self, first, stride):
        """Each N from the first one on, in steps, until a run meets no refusal, with what the program writes."""
        number = first
        while (told := self.refused(number))[1]:
            yield number, told[0]
            number += stride

    def opened(self, stride):
        """The first N after the opening: one more than the greatest N whose refusal stops the opening, searched in
        steps of this length and then by halves. Some refusals before that do not stop it."""
        low = max(number for number, told in self.swept(1, stride) if told[1:] == UNOPENED)
        high = low + stride
        while high - low > 1:
            middle = (low + high) // 2
            low, high = (middle, high) if self.refused(middle)[0][1:] == UNOPENED else (low, middle)
        return high

    def rounds(self, strides):
        """Each N from 1 on, in the first steps during the opening and in the second after it, with what the program
        writes."""
        first = self.opened(strides[0]) if strides[0] > strides[1] else 1
        for number in range(1, first, strides[0]):
            yield number, self.refused(number)[0]
        yield from self.swept(first, strides[1])

    def last(self, number):
        """The greatest N that meets a refusal, from one that does."""
        low, high = number, 2 * number
        while self.refused(high)[1]:
            low, high = high, 2 * high
        while high - low > 1:
            middle = (low + high) // 2
            low, high = (middle, high) if self.refused(middle)[1] else (low, middle)
        return low


def answered(program, requests, *words):
    """The answers to these requests if no memory is refused, each by itself."""
    output, faults, status = call(program, "run", *words, stream=b"".join(requests))
    expect("the end of the stream", (b"", 0), (faults, status))
    found = kcr.answers(output, requests)
    expect("the number of answers", len(requests), len(found))
    return found


class Wanted:
    """What the program may answer to a stream, and what a file then has, if requests for memory are refused."""

    def __init__(self, program, requests):
        self.program, self.requests = program, requests
        self.known_answers, self.known_rows = {}, {}

    def others(self, refused):
        """The requests but those at these places."""
        return [request for place, request in enumerate(self.requests) if place not in refused]

    def answers(self, refused):
        """The answers to the stream without the requests at these places, with refusal 33 in their place."""
        if refused not in self.known_answers:
            others = iter(answered(self.program, self.others(refused)))
            self.known_answers[refused] = [REFUSAL if place in refused else next(others)
                                           for place in range(len(self.requests))]
        return self.known_answers[refused]

    def judged(self, number, told, most=1):
        """The number of requests that were answered, and the places of those refused for memory, at most `most`."""
        output, *end = told
        if told in BEFORE:
            return 0, ()
        found = kcr.answers(output, self.requests)
        refused = tuple(place for place, text in enumerate(found) if text == REFUSAL)
        wanted = b"".join(self.answers(refused)[:len(found)])
        is_whole = len(found) == len(self.requests) and tuple(end) == (b"", 0)
        if output != wanted or len(refused) > most or not (is_whole or tuple(end) == MEMORY):
            raise Wrong(f"the refusal of request {number} for memory: {told!r:.3000}")
        return len(found), refused

    def rows(self, room, count, refused):
        """The rows of a file after the first `count` requests but those at these places."""
        if (count, refused) not in self.known_rows:
            file = room / f"wanted-{len(self.known_rows)}"
            answered(self.program, self.others(refused)[:count - len(refused)], "--file", file)
            self.known_rows[count, refused] = kcr.rows_of(file)
        return self.known_rows[count, refused]

    def kept(self, room, file, number, told, most=1):
        """Sees that the program answers as it may, and that the file has the rows of what was answered. If these are
        new rows, or there is no answer yet, the audit finds nothing, and accepted commands get their answers again."""
        count, refused = self.judged(number, told, most)
        is_known, what = (count, refused) in self.known_rows, f"after the refusal of request {number} for memory"
        if count:
            expect(f"the rows {what}", self.rows(room, count, refused), kcr.rows_of(file))
        if not is_known:
            pairs = [pair for pair in zip(self.requests[:count], self.answers(refused))
                     if pair[1].startswith(b"HTTP/1.1 200 OK")]
            sent, again = (b"".join(texts) for texts in zip(*pairs)) if pairs else (b"", b"")
            kcr.audited(self.program, file, f"the audit {what}")
            expect(f"accepted commands again {what}", (again, b"", 0),
                   call(self.program, "run", "--file", file, stream=sent))


def removed(file):
    """Takes a register's file and its log away."""
    for path in (file, kcr.log_of(file)):
        path.unlink(missing_ok=True)


# The tests

def over_memory(program, library, _room, strides):
    """A short ceremony over memory: a request is answered, or gets 33 and has no effect."""
    wanted, places = Wanted(program, STREAM), set()
    for number, told in Runs(program, library, "run", stream=b"".join(STREAM)).rounds(strides):
        places.update(wanted.judged(number, told)[1])
    print(f"    over memory: request {number} for memory was the last that was refused")
    expect("the requests that got 33", list(range(len(STREAM))), sorted(places))


def over_a_file(program, library, room, strides):
    """The short ceremony over a new file: the same, and the file has the rows of what was answered."""
    swept_over_a_file(program, library, room, STREAM, strides)


def swept_over_a_file(program, library, room, requests, strides):
    """Refuses memory to a stream over a new file."""
    wanted, file = Wanted(program, requests), room / "register"
    runs = Runs(program, library, "run", "--file", file, stream=b"".join(requests), before=lambda: removed(file))
    for number, told in runs.rounds(strides):
        wanted.kept(room, file, number, told)
    print(f"    over a file: request {number} for memory was the last that was refused")


def examples_over_memory(program, library, _room, strides):
    """Five cases over memory: a request is answered, or gets 33 and has no effect."""
    for name in EXAMPLES:
        wanted = Wanted(program, kcr.case(name))
        for number, told in Runs(program, library, "run", stream=b"".join(wanted.requests)).rounds(strides):
            wanted.judged(number, told)
        print(f"    {name}: request {number} for memory was the last that was refused")


def examples_over_a_file(program, library, room, strides):
    """Five cases, each over a new file: the same, and the file has the rows of what was answered."""
    for name in EXAMPLES:
        (room / name).mkdir()
        print(f"    {name}:")
        swept_over_a_file(program, library, room / name, kcr.case(name), strides)


def two_refusals(program, library, room, strides):
    """Random pairs of requests for memory are refused in one run: the same holds, over memory and over a file."""
    file, rng = room / "register", random.Random(2025)
    requests = kcr.case("step-out-of-order")
    wanted, stream = Wanted(program, requests), b"".join(requests)
    twice = 0
    for words, pairs in (((), PAIRS_OVER_MEMORY), (("--file", file), PAIRS_OVER_A_FILE)):
        runs = Runs(program, library, "run", *words, stream=stream, before=lambda: removed(file))
        first = runs.opened(strides[0])
        last = runs.last(first)
        for turn in range(pairs):
            number = rng.randrange(first, last)
            again = rng.randrange(1, 40 if turn % 2 else last - number + 1)
            told, is_refused = runs.refused(number, AGAIN=str(again))
            what = f"{number} and {number + again}"
            expect(f"whether request {number} is refused", True, is_refused)
            if words:
                wanted.kept(room, file, what, told, most=2)
            twice += len(wanted.judged(what, told, most=2)[1]) == 2
    print(f"    {PAIRS_OVER_MEMORY + PAIRS_OVER_A_FILE} pairs, of which {twice} refused two requests of the stream")
    expect("some pairs refuse two requests of the stream", True, twice > 100)


def dump(file):
    """What a database has, as sqlite3 tells it; nothing if there is no file."""
    if not file.exists():
        return EMPTY
    with kcr.opened(file) as database:
        return list(database.iterdump())


def openings(program, library, room, strides):
    """A new file, and one of each version, is opened: after `open: memory` it is as it was, and else it is the register
    that an opening makes of it."""
    file, register = room / "register", room / "made"
    answered(program, STREAM, "--file", register)
    rows = kcr.rows_of(register)
    for version in (None, 1, 2, 3):
        source = room / f"version-{version}"
        if version:
            kcr.copy(register, source)
            kcr.change(source, *(f"DROP TABLE {name}" for name in LACKING[version]),
                       f"UPDATE versions SET number = {version}")
        before = dump(source)

        def put_back():
            removed(file)
            if version:
                kcr.copy(source, file)

        for number, told in Runs(program, library, "run", "--file", file, before=put_back).swept(1, strides[1]):
            what = f"version {version} after the refusal of request {number} for memory"
            if told == (b"", *UNOPENED):
                expect(what, before, dump(file))
            elif version and told[1:] != MEMORY:
                expect(what, rows, kcr.rows_of(file))
        print(f"    version {version}: request {number} for memory was the last that was refused")


def is_a_report(text, told):
    """Whether a run writes a report whole, or a prefix of it and that memory was refused."""
    output, *end = told
    if tuple(end) == REFUSED:
        return text.startswith(output)
    return told == (text, b"", 0) or told in ((b"", *MEMORY), (b"", *UNOPENED))


def reports(program, library, room, strides):
    """The reports and the audit of a file: each is whole, or a prefix and a line, and the file does not change."""
    file = room / "register"
    answered(program, STREAM, "--file", file)
    held = kcr.contents(file)
    for words in REPORTS:
        text, refused = call(program, *words, "--file", file)[0], 0
        for number, told in Runs(program, library, *words, "--file", file).rounds(strides):
            if not is_a_report(text, told):
                raise Wrong(f"{words[0]}, the refusal of request {number} for memory: {told!r:.2000}")
            refused += tuple(told[1:]) == REFUSED
        print(f"    {words[0]}: refused {refused} times; request {number} for memory was the last that was refused")
        expect(f"{words[0]} is refused for memory at some request", True, refused > 0)
    expect("the files", held, kcr.contents(file))


def little_space(program, _library, room, strides):
    """A task over a copy of a register with a long log, in 12 to 60 MB of address space: it is done, or memory ran out,
    and no disk has failed."""
    file, into = room / "register", room / "into"
    answered(program, [kcr.person(b"k%d" % number, kcr.initials(number), b"Ann Abel") for number in range(300)],
             "--file", file)
    expect("whether the log is long", True, kcr.log_of(file).stat().st_size > 2_000_000)
    for words in [("custody",), ("export",), ("journal",), ("audit",), ("verify",), ("pack", "--into", into)]:
        unopened = 0
        for size in range(12, 61, strides[0]):
            into.unlink(missing_ok=True)
            most = size * 1_000_000
            told = call(program, *words, "--file", file,
                        preexec_fn=lambda: resource.setrlimit(resource.RLIMIT_AS, (most, most)))
            if told[1].startswith(b"open: disk"):
                raise Wrong(f"{words[0]} in {size} MB of address space: {told!r:.300}")
            unopened += told[1:] == UNOPENED
        print(f"    {words[0]}: `open: memory` at {unopened} sizes")
        expect(f"{words[0]} in the end", 0, told[2])
        expect(f"{words[0]} is not opened for memory at some size", True, unopened > 0)


TESTS = [over_memory, over_a_file, examples_over_memory, examples_over_a_file, two_refusals, openings, reports,
         little_space]


def main():
    words = [word for word in sys.argv[1:] if word != "--whole"]
    if not words:
        sys.exit(__doc__)
    steps = WHOLE if "--whole" in sys.argv else STRIDES
    kcr.judge_faults([kcr.with_last(test, steps[test.__name__]) for test in TESTS], words[1:],
                     str(pathlib.Path(words[0]).resolve()))


if __name__ == "__main__":
    main()
