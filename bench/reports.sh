#!/usr/bin/env bash
# Times the reports: bench/reports.sh PROGRAM [N ...], where PROGRAM is `kcr` or another with its words. For each N
# (100, 200 and 400 where none is; at most 400) a ceremony is played over a register in memory, with N signed steps of
# five seats, and with N people who come in, go out, come in again and go out. Then its script, or its attendance, is
# asked for 50 times. It prints milliseconds for one report, the time of the commands alone taken away, each the least
# of three runs; and the most memory that the program held (VmHWM of /proc), without the reports and with them.
set -eu
python3 - "$@" << 'PYTHON'
import json
import pathlib
import subprocess
import sys
import tempfile
import threading
import time

TIMES_ASKED = 50
PEOPLE_IN_A_REQUEST = 25
REPORTS = ["/ceremonies/1/script", "/ceremonies/1/attendance.csv"]
STAFF = {"AA": "CA", "BB": "IW", "CC": "SA", "DD": "SSC2", "FF": "SW"}
LETTERS = "ABCDEFGHIJKLMNOPQRSTUVWXYZ"
# Asked last where memory is measured: its answer, a refusal, shows that all others went out.
NO_PATH = b"GET /nowhere HTTP/1.1\r\nHost: l\r\n\r\n"
NO_PATH_TOLD = b'{"number":7,"refusal":"path"}'


def at(second):
    """The moment `second` seconds after the opening."""
    return f"2025-02-13T20:{second // 60:02}:{second % 60:02}Z"


def turns_of_the_sheet(guests):
    """Way and people of each request of the sheet, behind the one that lets the staff in."""
    groups = [guests[k:k + PEOPLE_IN_A_REQUEST] for k in range(0, len(guests), PEOPLE_IN_A_REQUEST)]
    return [(way, group) for group in groups * 2 for way in ("in", "out")]


def commands(size):
    """Path and members of each command of the ceremony."""
    guests = ["V" + LETTERS[k // 26] + LETTERS[k % 26] for k in range(size)]
    script = "step,activity,seats\n" + "".join(f"{k},Step {k},CA;IW;SA;SSC2;SW\n" for k in range(1, size + 1))
    turns = turns_of_the_sheet(guests)
    return [
        *[("/people", {"who": who, "name": f"Person {who}"}) for who in [*STAFF, *guests]],
        *[(f"/people/{who}/roles", {"role": role, "from": "2000-01-01", "until": "2099-12-31"})
          for who, role in STAFF.items()],
        ("/ceremonies", {"number": 1, "facility": "EAST", "day": "2025-02-13", "script": script}),
        ("/ceremonies/1/opening", {"at": at(0)}),
        ("/ceremonies/1/sheet", {"way": "in", "who": list(STAFF), "at": at(1)}),
        *[("/ceremonies/1/sheet", {"way": way, "who": who, "at": at(second)})
          for second, (way, who) in enumerate(turns, 2)],
        *[(f"/ceremonies/1/steps/{k}/signature", {"at": at(len(turns) + 1 + k)}) for k in range(1, size + 1)],
    ]


def request(number, path, members):
    """The bytes of a command, whose key is made of its number."""
    body = json.dumps({"key": f"k{number}", **members}, separators=(",", ":"))
    return f"POST {path} HTTP/1.1\r\nHost: l\r\nContent-Length: {len(body)}\r\n\r\n{body}".encode()


def milliseconds(program, requests):
    """How long the program takes over a file of requests."""
    with tempfile.TemporaryFile() as stream:
        stream.write(requests)
        stream.seek(0)
        begun = time.monotonic()
        subprocess.run([program, "run"], stdin=stream, stdout=subprocess.DEVNULL, check=True)
        return (time.monotonic() - begun) * 1000


def answers_of(run):
    """What the program writes, up to the answer to NO_PATH."""
    output = bytearray()
    while not output.endswith(NO_PATH_TOLD):
        piece = run.stdout.read1()
        if not piece:
            sys.exit("the program ended too early")
        output += piece
    return output


def send(run, requests):
    """Writes the requests to the program, which goes on waiting for more."""
    run.stdin.write(requests)
    run.stdin.flush()


def kilobytes(program, requests):
    """The most memory that the program held, looked up while it waits. Each request has to be answered with 200."""
    with subprocess.Popen([program, "run"], stdin=subprocess.PIPE, stdout=subprocess.PIPE) as run:
        threading.Thread(target=send, args=(run, requests + NO_PATH), daemon=True).start()
        answered = answers_of(run).count(b"HTTP/1.1 200 OK\r\n")
        status = pathlib.Path(f"/proc/{run.pid}/status").read_text()
    sent = requests.count(b" HTTP/1.1\r\n")
    if answered != sent:
        sys.exit(f"{answered} of {sent} requests were answered with 200")
    return int(status.split("VmHWM:")[1].split()[0])


def measured(program, requests):
    """Milliseconds, the least of three runs, and kilobytes."""
    return min(milliseconds(program, requests) for _ in range(3)), kilobytes(program, requests)


def main():
    program, *sizes = sys.argv[1:] or sys.exit("bench/reports.sh PROGRAM [N ...]")
    for size in map(int, sizes or [100, 200, 400]):
        alone = b"".join(request(number, *command) for number, command in enumerate(commands(size)))
        before, held_before = measured(program, alone)
        asked = [alone + f"GET {path} HTTP/1.1\r\nHost: l\r\n\r\n".encode() * TIMES_ASKED for path in REPORTS]
        for path, (took, held) in zip(REPORTS, [measured(program, requests) for requests in asked]):
            print(f"{size}: GET {path} takes {(took - before) / TIMES_ASKED:.3f} ms; "
                  f"{held_before} kB without, {held} kB with")


if __name__ == "__main__":
    main()
PYTHON
