#!/usr/bin/env bash
# Times `kcr run --file` over a file on disk: bench/files.sh PROGRAM [N ...]. For each N (1000 and 100000 where none is)
# a register of N accepted commands, all POST /people, is made in a file. Then it prints, for that file: how long it takes
# to open (a stream without requests; the least of five runs), and what a further command takes, by the clock and of the
# processor: 6000 further commands less 1000, over copies of the file, so that the opening, which takes longer than they
# do, is in both; the median of five such pairs. Where strace is there, it prints how often the program asked the disk to
# keep what it wrote (fsync, fdatasync) for 100 commands, 100 questions and 100 repeats. Files lie in the folder that
# TMPDIR names: for figures of a disk that must be one on a disk.
set -eu
python3 - "$@" << 'PYTHON'
import pathlib
import re
import resource
import shutil
import statistics
import subprocess
import sys
import tempfile
import time

FEW, MANY = 1000, 6000
TIMES = 5
LETTERS = "ABCDEFGHIJKLMNOPQRSTUVWXYZ"


def initials(number):
    """Four letters that tell a number below 26^4."""
    return "".join(LETTERS[number // 26**place % 26] for place in (3, 2, 1, 0))


def people(first, count):
    """The bytes of commands that enter `count` people, each under a key of its own."""
    bodies = (f'{{"key":"k{n:06d}","who":"{initials(n)}","name":"Person {n}"}}' for n in range(first, first + count))
    return "".join(f"POST /people HTTP/1.1\r\nHost: l\r\nContent-Length: {len(body)}\r\n\r\n{body}"
                   for body in bodies).encode()


def run(program, file, stream, before=()):
    """Plays a stream over a file; answers the seconds by the clock and of the processor, and what was written."""
    spent = resource.getrusage(resource.RUSAGE_CHILDREN)
    begun = time.monotonic()
    told = subprocess.run([*before, program, "run", "--file", file], input=stream, capture_output=True)
    taken = time.monotonic() - begun
    after = resource.getrusage(resource.RUSAGE_CHILDREN)
    if told.returncode != 0:
        sys.exit(f"status {told.returncode}: {told.stderr.decode()}")
    return taken, after.ru_utime + after.ru_stime - spent.ru_utime - spent.ru_stime, told


def copy(file, room, name):
    """A copy of a file and of the log beside it."""
    for ending in ("", "-wal"):
        if pathlib.Path(f"{file}{ending}").exists():
            shutil.copy(f"{file}{ending}", room / f"{name}{ending}")
    return room / name


def least(program, file, room, stream):
    """The least seconds, by the clock and of the processor, of some runs, each over a copy."""
    runs = [run(program, copy(file, room, f"copy{k}"), stream) for k in range(TIMES)]
    return min(taken for taken, _, _ in runs), min(spent for _, spent, _ in runs)


def further(program, file, room, count):
    """The microseconds that one more command takes, by the clock and of the processor."""
    pairs = []
    for _ in range(TIMES):
        few, many = [run(program, copy(file, room, "further"), people(count, more)) for more in (FEW, MANY)]
        pairs.append([(many[k] - few[k]) / (MANY - FEW) * 1e6 for k in (0, 1)])
    return [statistics.median(pair[k] for pair in pairs) for k in (0, 1)]


def syncs(program, file, room, stream):
    """How often the disk was asked to keep what was written."""
    trace = room / "trace"
    run(program, copy(file, room, "traced"), stream,
        ["strace", "-f", "-e", "trace=fsync,fdatasync,sync_file_range,msync", "-o", trace])
    return len(re.findall(r"^\d+ +(?:fsync|fdatasync|sync_file_range|msync)\(", trace.read_text(), re.M))


def main():
    program, *counts = sys.argv[1:] or sys.exit("bench/files.sh PROGRAM [N ...]")
    program = pathlib.Path(program).resolve()
    for count in map(int, counts or [1_000, 100_000]):
        with tempfile.TemporaryDirectory() as name:
            room = pathlib.Path(name)
            file = room / "register"
            made, _, told = run(program, file, people(0, count))
            accepted = told.stdout.count(b'"accepted"')
            if accepted != count:
                sys.exit(f"{accepted} of {count} commands were accepted")
            opened, _ = least(program, file, room, b"")
            taken, spent = further(program, file, room, count)
            print(f"{count} commands: made in {made:.2f} s; opened in {opened:.3f} s; one more takes "
                  f"{taken:.0f} us by the clock, {spent:.0f} us of the processor")
            if shutil.which("strace"):
                none = syncs(program, file, room, b"")
                question = b"GET /ceremonies/1/room?at=2025-01-01T00:00:00Z HTTP/1.1\r\nHost: l\r\n\r\n"
                told = [(kind, syncs(program, file, room, stream) - none) for kind, stream in (
                    ("commands", people(count, 100)), ("questions", question * 100), ("repeats", people(0, 100)))]
                print("  asked to keep: " + ", ".join(f"{times} times for 100 {kind}" for kind, times in told))


if __name__ == "__main__":
    main()
PYTHON
