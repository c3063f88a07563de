#!/usr/bin/env python3
"""The example ceremony: what is kept of it under examples/ and docs/ is what the program answers and the rules say.

    tests/examples.py PROGRAM [NAME ..]

Shown are: that `examples/make.py` writes the stream and the shell script that are kept; that the kept answers and the
three kept reports are those that `tools/check.py` makes of the requests by its own reading of the rules; that the
program gives them byte for byte, over a file and to curl over a port, and gives its answers again to the commands sent
again; that its audit finds nothing; that the first commands of README.md print what stands below them; that the kept
picture is what `tools/room.py` draws of the attendance; that sqlite3 answers examples/queries.sql as is kept; and that
mandoc has nothing to say of docs/kcr.1. What needs curl, sqlite3 or mandoc is left out with a line where that
is not there. With names only the tests with these names run.

The last line is `N passed, M failed`, and the status is 0 where none failed.
"""
import sys

sys.dont_write_bytecode = True  # no files beside these

import functools
import json
import pathlib
import re
import subprocess
import tempfile

import kcr
from kcr import NOTHING_FOUND, SECONDS, call, expect
from rules import Asked

import check  # of tools, where kcr looks for modules

ROOT = kcr.HERE.parent
EXAMPLES = ROOT / "examples"
CEREMONY = "61"
REPORTS = {  # what each is called, and the words that print it
    "ceremony.script.txt": ("print", "--ceremony", CEREMONY),
    "ceremony.attendance.csv": ("attendance", "--ceremony", CEREMONY),
    "ceremony.custody.txt": ("custody",),
}
ASKED = {  # those that can be asked for over HTTP
    f"/ceremonies/{CEREMONY}/script": "ceremony.script.txt",
    f"/ceremonies/{CEREMONY}/attendance.csv": "ceremony.attendance.csv",
}


def kept(name):
    """A kept file of the examples."""
    return (EXAMPLES / name).read_bytes()


def stream():
    """The requests of the kept stream: the bytes of each, its method, its path, and its body or None."""
    found = []
    for message in kcr.messages(kept("ceremony.http")):
        head, _, body = message.lstrip(b"\r\n").partition(b"\r\n\r\n")
        method, path, _ = head.split(b"\r\n")[0].decode().split(" ")
        found.append((message, method, path, json.loads(body) if body.strip() else None))
    return found


def line(status, method, path, body):
    """An answer as the line that `examples/ceremony.sh` prints of it."""
    return f"{status} {method} {path} > {ASKED[path]}" if path in ASKED else f"{status} {method} {path} {body}"


def by_the_rules(_program, _room):
    """The rules as `tools/check.py` reads them make the kept answers and the kept reports of the kept requests."""
    register, told = Asked(), []
    for method, path, body in check.requests_of(kept("ceremony.http")):
        status, text = register.answer(method, path, body)
        told.append(line(status, method, path, text))
    expect("the answers", "".join(f"{text}\n" for text in told).encode(), kept("ceremony.answers.txt"))
    for name, text in (("ceremony.script.txt", register.script(int(CEREMONY))),
                       ("ceremony.attendance.csv", register.attendance(int(CEREMONY))),
                       ("ceremony.custody.txt", register.custody())):
        expect(name, kept(name), text.encode())


# What is kept, and the program

def made(_program, room):
    """`examples/make.py` writes the stream and the script that are kept."""
    subprocess.run([sys.executable, EXAMPLES / "make.py", room], check=True, timeout=SECONDS)
    for name in ("ceremony.http", "ceremony.sh"):
        expect(name, kept(name), (room / name).read_bytes())


@functools.cache
def played(program):
    """What the program answers to the stream over a file: each answer as a line, and the bytes of the file and of its
    log. The reports among the answers have to be those kept."""
    with tempfile.TemporaryDirectory() as room:
        file = pathlib.Path(room) / "register"
        output, faults, status = call(program, "run", "--file", file, stream=kept("ceremony.http"))
        left = kcr.contents(file)
    expect("how it ends", (b"", 0), (faults, status))
    requests = stream()
    answers = kcr.answers(output, [message for message, *_ in requests])
    expect("how many answers there are", len(requests), len(answers))
    expect("what is left of the output", len(output), sum(map(len, answers)))
    lines = []
    for (_, method, path, _), answer in zip(requests, answers):
        head, _, body = answer.partition(b"\r\n\r\n")
        if path in ASKED:
            expect(path, kept(ASKED[path]), body)
        lines.append(line(head.split(b" ")[1].decode(), method, path, body.decode()))
    return "".join(f"{text}\n" for text in lines), left


def filled(program, room):
    """A file that the stream has filled."""
    file = room / "register"
    for path, left in zip((file, kcr.log_of(file)), played(program)[1]):
        if left is not None:
            path.write_bytes(left)
    return file


def reported(program, file):
    """Sees that the program prints the kept reports of a file, and that its audit finds nothing."""
    for name, words in REPORTS.items():
        expect(name, (kept(name), b"", 0), call(program, *words, "--file", file))
    expect("audit", NOTHING_FOUND, call(program, "audit", "--file", file))


def over_a_file(program, room):
    """The stream gets the kept answers over a file, and the file has the kept reports."""
    expect("the answers", kept("ceremony.answers.txt"), played(program)[0].encode())
    reported(program, filled(program, room))


def again(program, room):
    """The accepted commands sent again get their answers again, and change nothing."""
    file = filled(program, room)
    pairs = [(message, text.split(" ", 3)[3]) for (message, *_, body), text
             in zip(stream(), kept("ceremony.answers.txt").decode().splitlines()) if body and text.startswith("200 ")]
    output, *_ = call(program, "run", "--file", file, stream=b"".join(message for message, _ in pairs))
    expect("the answers", [text for _, text in pairs],
           [answer.partition(b"\r\n\r\n")[2].decode() for answer in kcr.answers(output, [one for one, _ in pairs])])
    reported(program, file)


def by_curl(program, room):
    """`examples/ceremony.sh` gets the kept answers over a port, and leaves the kept reports."""
    file = room / "register"
    with kcr.Server(program, len(stream()), file) as server:
        run = subprocess.run(["sh", EXAMPLES / "ceremony.sh", f"http://127.0.0.1:{server.port}", room],
                             capture_output=True, timeout=SECONDS)
        expect("what it says", (kept("ceremony.answers.txt"), b"", 0), (run.stdout, run.stderr, run.returncode))
        expect("the end of serve", (b"", b"", 0), server.end())
    for name in ASKED.values():
        expect(name, kept(name), (room / name).read_bytes())
    reported(program, file)


def first_page(program, room):
    """The first commands of README.md print what stands below them, and the server of 10 connections ends."""
    page = (ROOT / "README.md").read_text(encoding="utf-8")
    commands, printed = re.search(r"(?ms)^```sh\n(.*?)^```\n.*?^```text\n(.*?)^```$", page).groups()
    port = str(kcr.free_port())
    script = f'kcr() {{ "{program}" "$@"; }}\n' + commands.replace("8053", port) + "wait\n"
    run = subprocess.run(["bash", "-c", script], cwd=room, capture_output=True, text=True, timeout=SECONDS)
    expect("what is printed", (printed.replace("8053", port), "", 0), (run.stdout, run.stderr, run.returncode))


def two_answers(program, _room):
    """`examples/first.http` is answered as README.md and the program's crate say."""
    page = (ROOT / "README.md").read_text(encoding="utf-8")
    output, faults, status = call(program, "run", stream=kept("first.http"))
    expect("the end", (b"", 0), (faults, status))
    expect("the crate's stdout", (ROOT / "crates" / "kcr_tool" / "stdout").read_bytes(), output)
    expect("README.md", output.decode().replace("\r\n", "\n") + "\n",
           re.findall(r"(?ms)^```text\n(HTTP/1.1 200.*?)^```$", page)[0])


def pictured(_program, _room):
    """The kept picture is what `tools/room.py` draws of the kept attendance, and what is none is refused."""
    def draw(text):
        run = subprocess.run([sys.executable, ROOT / "tools" / "room.py", f"Ceremony {CEREMONY}, EAST: the room"],
                             input=text, capture_output=True, timeout=SECONDS)
        return run.stdout, run.stderr != b"", run.returncode

    picture = (ROOT / "docs" / "room.svg").read_bytes()
    expect("docs/room.svg", (picture, False, 0), draw(kept("ceremony.attendance.csv")))
    for text in (b"", kept("ceremony.script.txt"), b"who,name,in,out\nAL,Ada Lund,17:01,\n", b"\xff"):
        expect(f"{text!r:.40}", (b"", True, 1), draw(text))


def queried(program, room):
    """sqlite3 answers the questions of `examples/queries.sql` as is kept, and the file is a register as before."""
    file = filled(program, room)
    run = subprocess.run(["sqlite3", "-batch", "-init", "/dev/null", file], input=kept("queries.sql"),
                         capture_output=True, timeout=SECONDS)
    expect("the answers", (kept("queries.txt"), b"", 0), (run.stdout, run.stderr, run.returncode))
    reported(program, file)


def manual(_program, _room):
    """mandoc has nothing to say of the manual, except that the page of the scripts may not be installed here."""
    run = subprocess.run(["mandoc", "-Tlint", ROOT / "docs" / "kcr.1"], capture_output=True, text=True, timeout=SECONDS)
    said = [line for line in (run.stdout + run.stderr).splitlines() if "manual not found: Xr kcr-backup 8" not in line]
    expect("what it says", [], said)


TESTS = [made, by_the_rules, over_a_file, again, by_curl, first_page, two_answers, pictured, queried, manual]
NEEDS = {by_curl: "curl", first_page: "curl", queried: "sqlite3", manual: "mandoc"}


if __name__ == "__main__":
    kcr.judge_installed(TESTS, NEEDS, __doc__)
