#!/usr/bin/env python3
"""Runs each case of tests/cases over a new file: it makes no difference, and nothing is refused without a cause.

    tests/healthy.py PROGRAM

No contract can say that out of memory (33), a fault of the device (34) or a register that is broken (35) had a cause.
So each case is played to a register in a new file that does not fail, with ample memory, and has to get the bytes that
it gets over memory; none of these three is among them, and the audit of each file finds nothing.

The last line is `N passed, M failed`, and the status is 0 where none failed.
"""
import sys

sys.dont_write_bytecode = True  # no files beside these

import functools
import pathlib

import cases
import kcr
from kcr import HERE, expect

CAUSED = (b'"refusal":"memory"', b'"refusal":"disk"', b'"refusal":"broken"')


def healthy(program, case, room):
    """A case over a file gets its bytes, none of which refuses without a cause."""
    wanted, file = case.with_name(case.name + ".stdout").read_bytes(), room / "register"
    expect("refusals for memory, the device or a broken register", [], [word for word in CAUSED if word in wanted])
    output, faults, status = kcr.call(program, "run", "--file", file, stream=case.read_bytes())
    if output != wanted:
        raise kcr.Wrong(cases.difference(case.read_bytes(), wanted, output))
    expect("the end", (b"", 0), (faults, status))
    kcr.audited(program, file)


def main():
    if len(sys.argv) != 2:
        sys.exit(__doc__)
    program = str(pathlib.Path(sys.argv[1]).resolve())
    kcr.judge([(case.name, healthy.__doc__, functools.partial(healthy, program, case))
               for case in cases.cases_in(HERE / "cases") if cases.text_of(case, ".args", "").split() == ["run"]])


if __name__ == "__main__":
    main()
