#!/usr/bin/env python3
"""Runs each case of a folder, or the named ones, against a program, and compares every byte.

    tests/cases.py PROGRAM [FOLDER]
    tests/cases.py PROGRAM NAME ..

A case is NAME (the program's standard input), NAME.args (its words, one a line), NAME.stdout and NAME.stderr (what it
writes to standard output and to standard error; nothing if there is no NAME.stderr) and, if it is not 0, NAME.status
(its exit status). FOLDER is tests/cases, which has a folder for each subject, and the named cases. Each request has a
field `X-Why:` that says what it shows. The program is called by the name `kcr`, which its lines of usage repeat.

The last line is `N passed, M failed`, and the status is 0 where none failed.
"""
import itertools
import pathlib
import re
import subprocess
import sys
import tempfile

SECONDS = 60
SHOWN_BYTES = 600


def parted(output):
    """The answers that an output has, one after the other, each with its body."""
    return [part for part in re.split(rb"(?=HTTP/1\.1 [1-5][0-9][0-9] )", output) if part]


def reasons(requests):
    """What each request says that it shows, in their order."""
    return [why.decode("latin1") for why in re.findall(rb"(?im)^X-Why: ?([^\r\n]*)", requests)]


def difference(requests, wanted, got):
    """Where two outputs first differ, in words: the answer, the request that it belongs to, and both texts."""
    pairs = list(zip(parted(wanted), parted(got)))
    place = next((i for i, (one, other) in enumerate(pairs) if one != other), len(pairs))
    before = sum(not part.startswith(b"HTTP/1.1 100") for part in parted(wanted)[:place])
    told = reasons(requests)
    lines = [f"    answer {before + 1} differs" + (f": {told[before]}" if before < len(told) else "")]
    for word, output in (("wanted", wanted), ("got", got)):
        rest = parted(output)[place:place + 1]
        lines.append(f"    {word:6} {rest[0][:SHOWN_BYTES]!r}" if rest else f"    {word:6} nothing more")
    return "\n".join(lines)


def text_of(case, ending, otherwise):
    """The text of one of a case's files, or this where it has none."""
    path = case.with_name(case.name + ending)
    return path.read_text() if path.is_file() else otherwise


def unlike(wanted, got):
    """Where what was written to standard error first differs, in words, or None."""
    if wanted == got:
        return None
    lines = itertools.zip_longest(wanted.splitlines(True), got.splitlines(True), fillvalue="nothing more")
    number, (one, other) = next((number, pair) for number, pair in enumerate(lines, 1) if pair[0] != pair[1])
    return f"    line {number} of standard error differs\n    wanted {one!r}\n    got    {other!r}"


def fault_of(program, case):
    """What is wrong with what the program does, in words, or None."""
    requests = case.read_bytes()
    wanted = case.with_name(case.name + ".stdout").read_bytes()
    status = int(text_of(case, ".status", "0"))
    words = text_of(case, ".args", "").splitlines()
    try:
        run = subprocess.run([program, *words], input=requests, capture_output=True, timeout=SECONDS)
    except subprocess.TimeoutExpired:
        return f"    no end within {SECONDS} seconds"
    if run.stdout != wanted:
        return difference(requests, wanted, run.stdout)
    if run.returncode != status:
        return f"    status {run.returncode}, and not {status}"
    return unlike(text_of(case, ".stderr", ""), run.stderr.decode(errors="replace"))


def cases_in(folder):
    """The cases of a folder and of the folders in it, by name."""
    return sorted((path.with_suffix("") for path in folder.rglob("*.stdout")), key=lambda case: case.name)


def chosen(words):
    """The cases that the words ask for: those of a folder, or these in tests/cases; without words all of these."""
    here = pathlib.Path(__file__).resolve().parent / "cases"
    if len(words) == 1 and pathlib.Path(words[0]).is_dir():
        return cases_in(pathlib.Path(words[0]))
    found = [case for case in cases_in(here) if not words or case.name in words]
    for name in words:
        if not any(case.name == name for case in found):
            sys.exit(f"tests/cases has no case {name}")
    return found


def main():
    if len(sys.argv) < 2:
        sys.exit(__doc__)
    cases = chosen(sys.argv[2:])
    failed = 0
    with tempfile.TemporaryDirectory(prefix="kcr-") as room:
        program = pathlib.Path(room, "kcr")
        program.symlink_to(pathlib.Path(sys.argv[1]).resolve())
        for case in cases:
            fault = fault_of(program, case)
            if fault is not None:
                failed += 1
                print(f"{case.name}:\n{fault}")
    passed = len(cases) - failed
    print(f"{passed} passed, {failed} failed")
    sys.exit(1 if failed or not passed else 0)


if __name__ == "__main__":
    main()
