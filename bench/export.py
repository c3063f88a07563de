#!/usr/bin/env python3
"""What it costs to export a register and to pack it into one file, by its number of commands.

    bench/export.py PROGRAM [N ..]

For each N (25000, 50000 and 100000 where none is) a file of N commands is made, as `verify.py` makes it. Printed are the
bytes of the file and its log, the bytes that the task writes, the CPU seconds, the wall-clock seconds, and the most
memory that the program held (kilobytes). The export has to be N requests, and an export of the packed file the same bytes.
Files lie in the folder that TMPDIR names.
"""
import pathlib
import sys
import tempfile

import table
import verify


def show(program, count, room):
    """The rows of the table for a file of N commands."""
    file, packed = room / f"{count}.db", room / f"{count}-packed.db"
    table.run([program, "run", "--file", str(file)], verify.stream_of(count))
    held = file.stat().st_size + pathlib.Path(f"{file}-wal").stat().st_size
    whole = b""
    for task, words in [("export", ["--file", str(file)]), ("pack", ["--file", str(file), "--into", str(packed)])]:
        spent, taken, memory, output, _ = table.run([program, task, *words], b"")
        size = len(output) if task == "export" else packed.stat().st_size
        whole = whole or output
        cells = [f"{count:,}", f"{held:,}", task, f"{size:,}", f"{spent:.2f}", f"{taken:.2f}", f"{memory:,}"]
        print("| " + " | ".join(cells) + " |", flush=True)
    if whole.count(b"POST /") != count:
        sys.exit(f"{whole.count(b'POST /')} requests")
    if table.run([program, "export", "--file", str(packed)], b"")[3] != whole:
        sys.exit("the packed file has another export")


def main():
    program, *counts = sys.argv[1:] or sys.exit(__doc__.strip())
    print("| Commands | Bytes of the file and its log | Task | Bytes written | Processor, s | Clock, s | kB |\n"
          "|---|---|---|---|---|---|---|", flush=True)
    with tempfile.TemporaryDirectory() as room:
        for count in map(int, counts or (25000, 50000, 100000)):
            show(program, count, pathlib.Path(room))


if __name__ == "__main__":
    main()
