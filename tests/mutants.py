#!/usr/bin/env python3
"""What `tools/mutants.py` tells of mutants that are refused and of edits that are none, over a copy of `kcr_seats`.

    tests/mutants.py

It takes a minute. The last line is `N passed, M failed`, and the status is 0 where none failed.
"""
import sys

sys.dont_write_bytecode = True  # no files beside these

import shutil
import subprocess

import kcr
from kcr import HERE, expect

TICK = ("src/steps.rt", "self.book.add(&mut self.share, 1);", "self.book.add(&mut self.share, 0);")
LEAST = ("src/check.rt", "able_count(fits, seats) < seats.len()", "able_count(fits, seats) <= seats.len()")
SAME = ("src/search.rt", "let mut busy = People::none();", "let nobody = People::none(); let mut busy = nobody;")
LOST = ("src/search.rt", "let mut nobody_at_all = 0;", "let mut nobody_at_all = 1;")
WRONG_WORD = ("src/check.rt", "able_count(fits, seats) < seats.len()", "able_count(fits, seats) < seats.length()")


def told(room, edits):
    """The exit status, and what is said of each of these edits."""
    top = HERE.parent
    (room / "tools").mkdir(parents=True)
    shutil.copy(top / "tools" / "mutants.py", room / "tools")
    shutil.copy(top / "HANDLES", room)
    (room / "crates.txt").write_text("kcr_seats:\n")
    crate = room / "crates" / "kcr_seats"
    shutil.copytree(top / "crates" / "kcr_seats", crate, ignore=shutil.ignore_patterns("out", "must-fail"))
    (crate / "must-fail").mkdir()
    for name, (file, old, new) in edits.items():
        (crate / "must-fail" / f"{name}.edit").write_text(f"file: {file}\nold: {old}\nnew: {new}\n")
    ran = subprocess.run([sys.executable, room / "tools" / "mutants.py", room], stdout=subprocess.PIPE,
                         stderr=subprocess.STDOUT, text=True, timeout=kcr.SECONDS)
    lines = [line.split(": ", 2)[:2] for line in ran.stdout.splitlines()]
    return ran.returncode, {name.removeprefix("kcr_seats/"): said for name, said in lines}


def wrong_bodies(room):
    """Two that are wrong are refused, in one check; one of them is called by many functions."""
    expect("two mutants", (0, {"tick": "refused", "least": "refused", "mutants": "2 of 2 refused"}),
           told(room, {"tick": TICK, "least": LEAST}))


def a_body_that_is_right(room):
    """One that means the same is not refused, though a function that it calls has a mutant that is."""
    expect("one that is right", (1, {"same": "NOT REFUSED", "tick": "refused", "mutants": "1 of 2 refused"}),
           told(room, {"same": SAME, "tick": TICK}))


def no_mutants(room):
    """One whose text is not there, and one that does not compile, are not refused, and leave the others as they are."""
    expect("no mutants", (1, {"least": "refused", "lost": "NOT REFUSED", "word": "NOT REFUSED",
                              "mutants": "1 of 3 refused"}),
           told(room, {"least": LEAST, "lost": LOST, "word": WRONG_WORD}))


TESTS = [wrong_bodies, a_body_that_is_right, no_mutants]

if __name__ == "__main__":
    kcr.judge([(test.__name__, test.__doc__, test) for test in TESTS])
