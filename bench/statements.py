#!/usr/bin/env python3
"""What each kind of request asks of the tables: statements, rows and instructions, counted by valgrind.

    bench/statements.py PROGRAM [--past N] [REQUEST ..]

Two ceremonies are played over a register in memory, with each of the 19 commands, the four questions and the two
reports; in the first one each statement is compiled, the second one is counted. For each request the stream is played up
to it and once more with it, and what `valgrind --tool=callgrind` counted is compared: how many statements read and
wrote, and how many instructions it took. The register is small: twelve people who take part, and ceremonies of five
steps. Last come a repeat and a refusal. With `--past N` there are N earlier ceremonies of 60 steps and 12 people. With
names of requests only these are counted.
"""
import argparse
import collections
import re
import subprocess
import sys
import tempfile

sys.dont_write_bytecode = True  # no files beside these

from table import EVERYBODY, LETTERS, Client, enter_staff, hold_ceremony, moment

READS = re.compile(r"sqlite::transaction::Transaction::query_all\b")
WRITES = re.compile(r"sqlite::connection::Connection::write\b")
CALL = re.compile(r"(?m)^cfn=\((\d+)\)(?: (.*))?\ncalls=(\d+)")
SUM = re.compile(r"(?m)^(?:summary|totals): (\d+)")
NAME = re.compile(r"(?m)^c?fn=\((\d+)\) (.*)$")

SCRIPT = "step,activity,seats\n" + "".join(f"{step},Step {step},CA;IW\n" for step in range(1, 6))


def requests_of(turn, past):
    """The requests around a ceremony, the first or the second behind those that lie past: what is counted, by its name,
    or None for what only comes between; the path, and the members of a command."""
    number = past + turn
    room, bag, again = f"/ceremonies/{number}", f"BB{number:04}", f"again{turn}"
    visitor, keeper, next_keeper, last = [letter + LETTERS[turn] for letter in "VKNZ"]
    at = [moment(number, second) for second in range(20)]
    return [
        ("enter a person", "/people", {"who": visitor, "name": "Vic Visitor"}),
        ("train", f"/people/{visitor}/roles", {"role": "SW", "from": "2000-01-01", "until": "2099-12-31"}),
        ("withdraw a training", f"/people/{visitor}/withdrawals", {"role": "SW", "day": "2010-12-31"}),
        (None, "/people", {"who": keeper, "name": "Kim Keeper"}),
        (None, "/people", {"who": next_keeper, "name": "Nia Next"}),
        ("appoint", "/custodians", {"place": f"RKSH-{turn}", "who": keeper, "day": "2011-01-01"}),
        ("replace", f"/custodians/RKSH-{turn}/replacement", {"who": next_keeper, "day": "2012-01-01"}),
        ("release", f"/custodians/RKSH-{turn}/release", {"day": "2013-01-01"}),
        ("add a box", "/boxes", {"facility": "EAST", "box": 3 + turn, "place": f"CO-EAST-{1 + turn}"}),
        ("plan a ceremony", "/ceremonies", {"number": number, "facility": "EAST", "day": at[0][:10], "script": SCRIPT}),
        ("open a ceremony", f"{room}/opening", {"at": at[0]}),
        ("twelve people come in", f"{room}/sheet", {"way": "in", "who": EVERYBODY, "at": at[1]}),
        ("add an item", "/items", {"ceremony": number, "item": f"HSM{number}", "at": at[2]}),
        ("seal a bag", f"{room}/bags/{bag}/seal", {"items": [f"HSM{number}"], "at": at[3]}),
        ("open a safe", f"{room}/safes/2", {"open": True, "by": "DD", "at": at[4]}),
        ("put a bag", f"{room}/bags/{bag}/put", {"to": "3", "at": at[5]}),
        ("take a bag", f"{room}/bags/{bag}/take", {"at": at[6]}),
        ("cut a bag", f"{room}/bags/{bag}/cut", {"at": at[7]}),
        ("sign a step", f"{room}/steps/1/signature", {"at": at[8]}),
        ("record an exception", f"{room}/exceptions", {"text": "Read twice", "pass": False, "at": at[9]}),
        ("pass a step", f"{room}/exceptions", {"text": "Left out", "pass": True, "at": at[10]}),
        (None, f"{room}/safes/2", {"open": False, "by": "DD", "at": at[11]}),
        *[(None, f"{room}/steps/{step}/signature", {"at": at[12]}) for step in (3, 4, 5)],
        ("twelve people go out", f"{room}/sheet", {"way": "out", "who": EVERYBODY, "at": at[13]}),
        ("close a ceremony", f"{room}/closing", {"at": at[14]}),
        ("everybody", "/people", None),
        ("the custodians of a day", f"/custodians/{at[0][:10]}", None),
        ("a bag", f"/bags/{bag}", None),
        ("who is in a room", f"{room}/room/{at[9]}", None),
        ("the annotated script", f"{room}/script", None),
        ("attendance", f"{room}/attendance.csv", None),
        (None, "/people", {"key": again, "who": last, "name": "Zoe Zero"}),
        ("a repeat", "/people", {"key": again, "who": last, "name": "Zoe Zero"}),
        ("a refusal (13, the person is there)", "/people", {"who": visitor, "name": "Vic Visitor"}),
    ]


def made_of(client, asked):
    """The bytes of each request."""
    made = []
    for _, path, members in asked:
        if members is None:
            client.get(path)
        elif "key" in members:
            client.post_under(path=path, **members)
        else:
            client.post(path, **members)
        made.append(client.take()[0])
    return made


def expect_answers(program, stream, refusals):
    """All requests are answered by 200, except for `refusals` of them."""
    told = subprocess.run([program, "run"], input=stream, capture_output=True, check=True).stdout
    others = [line for line in told.splitlines() if b'"refusal":' in line]
    if len(others) != refusals:
        sys.exit(f"refused: {others}")


def counted(program, stream):
    """How often each function was called while the stream was played, and the instructions under ''."""
    with tempfile.NamedTemporaryFile("r") as told:
        words = ["valgrind", "--tool=callgrind", f"--callgrind-out-file={told.name}", program, "run"]
        subprocess.run(words, input=stream, capture_output=True, check=True)
        text = told.read()
    names = dict(NAME.findall(text))
    calls = collections.Counter({"": int(SUM.search(text)[1])})
    for number, _, times in CALL.findall(text):
        calls[names[number]] += int(times)
    return calls


def sum_of(calls, pattern):
    """The calls of the functions whose names fit."""
    return sum(times for name, times in calls.items() if pattern.search(name))


def row_of(name, calls):
    """The row of a request, of the calls that it alone made."""
    return f"| {name} | {sum_of(calls, READS)} | {sum_of(calls, WRITES)} | {calls['']:,} |"


def main():
    parser = argparse.ArgumentParser()
    parser.add_argument("program")
    parser.add_argument("--past", type=int, default=0)
    parser.add_argument("requests", nargs="*", metavar="REQUEST")
    given = parser.parse_intermixed_args()
    client = Client()
    enter_staff(client)
    for number in range(1, given.past + 1):
        hold_ceremony(client, number)
    first = client.take()[0] + b"".join(made_of(client, requests_of(1, given.past)))
    asked = requests_of(2, given.past)
    made = made_of(client, asked)
    expect_answers(given.program, first + b"".join(made), 2)
    print("| Request | Reads | Writes | Instructions |\n|---|---|---|---|", flush=True)
    was = None
    for at, (name, _, _) in enumerate(asked):
        if name is None or given.requests and name not in given.requests:
            was = None
            continue
        was = was or counted(given.program, first + b"".join(made[:at]))
        now = counted(given.program, first + b"".join(made[:at + 1]))
        calls = collections.Counter({function: times - was[function] for function, times in now.items()})
        print(row_of(name, calls), flush=True)
        was = now


if __name__ == "__main__":
    main()
