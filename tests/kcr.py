"""What the tests of the program `kcr` share: to start it and end it, to cut streams into requests and answers, and to
read and change a register's file with C's sqlite, by Python's module sqlite3.

It tests nothing by itself: `program.py`, `changed.py`, `worked.py`, `server.py`, `kills.py`, `healthy.py`, `memory.py`
and `stops.py` use it, the kept streams of `files` and the cases, and `streams.py` makes its requests by it.
"""
import ast
import contextlib
import datetime
import functools
import importlib
import os
import pathlib
import random
import re
import shutil
import socket
import sqlite3
import subprocess
import sys
import tempfile
import threading

HERE = pathlib.Path(__file__).resolve().parent
SECONDS = 300  # nothing that is started lives longer
SHOWN_BYTES = 200
MOST_COMMANDS = 4_000_000_000  # of a register
sys.path.append(str(HERE.parent / "tools"))
from table_list import TABLES as LISTED  # noqa: E402

TABLES = [table.name for table in LISTED]
EMPTY_CUSTODY = b"safe 1 EAST shut\nsafe 2 EAST shut\nsafe 1 WEST shut\nsafe 2 WEST shut\n"
GO_ON = b"HTTP/1.1 100 Continue\r\n\r\n"
NOTHING_FOUND = (b"audit: nothing found\n", b"", 0)
# which columns of a table are days and which are moments, counted from 0
DAYS = {"trainings": (2, 3), "withdrawals": (2, 3, 4), "appointments": (1, 3), "ceremonies": (2,)}
MOMENTS = {"ceremonies": (4, 5), "marks": (1,), "steps": (5,), "sheet": (1,), "stays": (1, 3), "exceptions": (3,)}
EPOCH = datetime.datetime(1970, 1, 1)


class Wrong(Exception):
    """Something is not as it should be; the text says what."""


def around(text, place):
    """Some bytes of a text from shortly before a place on."""
    start = max(0, place - SHOWN_BYTES // 4)
    return f"{'..' if start else ''}{text[start:start + SHOWN_BYTES]!r}"


def difference(wanted, got):
    """Two values that differ, in words: of two texts the place where they begin to."""
    if not (isinstance(wanted, bytes) and isinstance(got, bytes)):
        return f"wanted {wanted!r:.600}, got {got!r:.600}"
    place = next((i for i, (one, other) in enumerate(zip(wanted, got)) if one != other), min(len(wanted), len(got)))
    return f"they differ at byte {place}: wanted {around(wanted, place)}, got {around(got, place)}"


def dated(table, place, text):
    """A value as sqlite3 prints it in its mode `quote`, with the date of a day or of a moment behind it in brackets."""
    if text != "NULL" and place in DAYS.get(table, ()):
        return f"{text} ({EPOCH + datetime.timedelta(days=int(text)):%Y-%m-%d})"
    if text != "NULL" and place in MOMENTS.get(table, ()):
        return f"{text} ({EPOCH + datetime.timedelta(seconds=int(text)):%Y-%m-%dT%H:%M:%SZ})"
    return text


def expect(what, wanted, got):
    """Says what is wrong where two values differ; of tuples it tells the first member that does."""
    if wanted == got:
        return
    if isinstance(wanted, tuple) and isinstance(got, tuple) and len(wanted) == len(got):
        pairs = next((one, other) for one, other in zip(wanted, got) if one != other)
        raise Wrong(f"{what}: {difference(*pairs)}; in all {got!r:.600}")
    raise Wrong(f"{what}: {difference(wanted, got)}")


# The program

TASKS = ("run", "serve", "print", "attendance", "custody", "export", "journal", "audit", "verify", "rebuild", "pack")


def call(program, *words, stream=b"", explain=True, seconds=SECONDS, **others):
    """What the program writes to standard output and to standard error, and its status. A task explains what it met,
    unless it is told not to: so all lines are seen. It may take `seconds` seconds."""
    more = ["--explain"] if explain and words and words[0] in TASKS else []
    run = subprocess.run([program, *map(str, words), *more], input=stream, stdout=subprocess.PIPE,
                         stderr=subprocess.PIPE, timeout=seconds, **others)
    return run.stdout, run.stderr, run.returncode


def free_port():
    """A port of 127.0.0.1 that nobody has now, below those that the system gives to clients: other tests run beside."""
    while True:
        port = random.SystemRandom().randrange(10_000, 32_000)
        with contextlib.suppress(OSError), socket.socket() as probe:
            probe.bind(("127.0.0.1", port))
            return port


class Server:
    """`kcr serve` on a free port, over a file or over memory, from when it listens, in this environment or in its own.
    It is killed where it is left."""

    def __init__(self, program, connections, file=None, seconds=SECONDS, environment=None, idle=None, longest=None):
        words = ["serve", "--explain", "--connections", str(connections)]
        for option, value in (("--file", file), ("--idle", idle), ("--longest", longest)):
            words += [option, str(value)] if value else []
        for _ in range(5):  # somebody may take the port before the program does
            self.port = free_port()
            self.run = subprocess.Popen([program, *words, "--port", str(self.port)], stdin=subprocess.DEVNULL,
                                        stdout=subprocess.PIPE, stderr=subprocess.PIPE, env=environment)
            self.guard = threading.Timer(seconds, self.run.kill)
            self.guard.start()
            self.line = self.run.stdout.readline()
            if self.line:
                return
            told = self.end()
            if told != (b"", b"fault: net\nbinding: %d\n" % self.port, 1):
                raise Wrong(f"the program does not listen: {told!r:.600}")
        raise Wrong("no free port in five tries")

    def __enter__(self):
        return self

    def __exit__(self, *_):
        self.run.kill()
        self.end()

    def end(self):
        """Waits for its end: what it still writes to standard output and to standard error, and its status."""
        try:
            output, faults = self.run.communicate(timeout=SECONDS)
        finally:
            self.guard.cancel()
        return output, faults, self.run.returncode

    def peak(self):
        """The most memory that the process has held so far, in kilobytes, beside the pages of the program's own file: one
        compiler's program is larger than the other's."""
        status = pathlib.Path(f"/proc/{self.run.pid}/status").read_text()
        held, of_files = (int(re.search(rf"{word}:\s*([0-9]+) kB", status)[1]) for word in ("VmHWM", "RssFile"))
        return held - of_files


# Connections

def sender(port, commands):
    """A thread that has begun to send commands, each over a connection of its own."""
    def send_each():
        for message in commands:
            exchange(port, [message])
    thread = threading.Thread(target=send_each)
    thread.start()
    return thread


def connect(port):
    """A connection to the port that nothing delays."""
    peer = socket.create_connection(("127.0.0.1", port), timeout=SECONDS)
    peer.setsockopt(socket.IPPROTO_TCP, socket.TCP_NODELAY, 1)
    return peer


def send(peer, pieces):
    """Sends each piece by itself, as long as anybody takes it, and says that nothing comes after."""
    with contextlib.suppress(OSError):
        for piece in pieces:
            peer.sendall(piece)
        peer.shutdown(socket.SHUT_WR)


def rest_of(peer):
    """All that still comes over a connection until it ends."""
    got = b""
    with contextlib.suppress(ConnectionError):
        while piece := peer.recv(65_536):
            got += piece
    return got


def exchange(port, pieces):
    """What a connection of its own answers to these pieces, until the other side closes."""
    with connect(port) as peer:
        sender = threading.Thread(target=send, args=(peer, pieces), daemon=True)
        sender.start()
        got = rest_of(peer)
        sender.join(SECONDS)
        return got


def in_pieces(text, size):
    """The text in pieces of this size."""
    return [text[i:i + size] for i in range(0, len(text), size)]


# Requests and answers

def request(method, path, body=b""):
    """The bytes of a request."""
    return b"%s %s HTTP/1.1\r\nHost: l\r\nContent-Length: %d\r\n\r\n%s" % (method, path, len(body), body)


def person(key, who, name):
    """The request that enters a person."""
    return request(b"POST", b"/people", b'{"key":"%s","who":"%s","name":"%s"}' % (key, who, name))


def answer(status, body, more=b""):
    """The bytes of an answer in JSON."""
    return (b"HTTP/1.1 %s\r\ncontent-type: application/json\r\ncontent-length: %d\r\n%s\r\n%s"
            % (status, len(body), more, body))


def accepted(number):
    """The answer to an accepted command that tells its number alone."""
    return answer(b"200 OK", b'{"accepted":%d}' % number)


def post(path, key, members):
    """The request for a command."""
    return request(b"POST", path, b'{"key":"%s",%s}' % (key, members))


def long_plan(number):
    """The request that plans a ceremony with a script of some 100 KB."""
    steps = b"".join(b"%d,Check %s,CA\\n" % (step, b"x" * 490) for step in range(1, 201))
    return post(b"/ceremonies", b"c%d" % number,
                b'"number":%d,"facility":"EAST","day":"2025-02-13","script":"step,activity,seats\\n%s"' % (number, steps))


def short_ceremony():
    """Ten commands of a ceremony: two people enter, are trained, come, sign a step, add an item and seal it."""
    return [
        person(b"k1", b"AA", b"Ann Abel"),
        person(b"k2", b"BB", b"Bob Berg"),
        post(b"/people/AA/roles", b"k3", b'"role":"IW","from":"2025-01-01","until":"2025-02-13"'),
        post(b"/people/BB/roles", b"k4", b'"role":"CA","from":"2025-01-01","until":"2025-02-13"'),
        post(b"/ceremonies", b"k5", b'"number":61,"facility":"EAST","day":"2025-02-13",'
                                    b'"script":"step,activity,seats\\n1,Check bags,CA;IW\\n2,Close,IW\\n"'),
        post(b"/ceremonies/61/opening", b"k6", b'"at":"2025-02-13T20:00:00Z"'),
        post(b"/ceremonies/61/sheet", b"k7", b'"way":"in","who":["AA","BB"],"at":"2025-02-13T20:05:00Z"'),
        post(b"/ceremonies/61/steps/1/signature", b"k8", b'"at":"2025-02-13T20:10:00Z"'),
        post(b"/items", b"k9", b'"ceremony":61,"item":"HSM4","at":"2025-02-13T20:12:00Z"'),
        post(b"/ceremonies/61/bags/BB51184287/seal", b"k10", b'"items":["HSM4"],"at":"2025-02-13T20:13:00Z"'),
    ]


def initials(number):
    """The number-th initials of four letters, in their order, from 0."""
    return bytes(65 + number // 26 ** place % 26 for place in (3, 2, 1, 0))


def messages(stream):
    """The requests of a stream of whole ones, each with the empty lines before it and its body."""
    found, start = [], 0
    while text := stream[start:].lstrip(b"\r\n"):
        blank = len(stream) - start - len(text)
        end = re.search(rb"\n\r?\n", text).end()
        length = re.search(rb"(?im)^content-length:[ \t]*([0-9]+)", text[:end])
        end += blank + int(length[1] if length else 0)
        found.append(stream[start:start + end])
        start += end
    return found


def answers(stream, requests):
    """The answers of a stream, those of these requests from the first on, each with the `100 Continue` before it."""
    found, start = [], 0
    for message in requests:
        if start == len(stream):
            break
        head = start + len(GO_ON) if stream.startswith(GO_ON, start) else start
        end = stream.index(b"\r\n\r\n", head) + 4
        length = re.search(rb"content-length: ([0-9]+)", stream[head:end])
        end += 0 if message.lstrip().startswith(b"HEAD ") else int(length[1])
        found.append(stream[start:end])
        start = end
    return found


def case_file(name):
    """The file of a case, or one beside it, by its name: `cases` has a folder for each subject."""
    found, = (HERE / "cases").glob(f"*/{name}")
    return found


def case(name):
    """The requests of a case."""
    return messages(case_file(name).read_bytes())


def case_answers(name):
    """The answers that a case wants, each by itself."""
    return answers(case_file(f"{name}.stdout").read_bytes(), case(name))


# The kept streams

def folders():
    """The kept streams, each a folder."""
    return sorted(path for path in (HERE / "files").iterdir() if path.is_dir())


def kept(folder, name):
    """A kept text: `requests`, `answers`, or what stands over the file that the requests fill."""
    return (folder / name).read_bytes()


def exchanges(folder):
    """Each request of a kept stream with its answer; where an answer closes, the requests behind it are left out."""
    requests = messages(kept(folder, "requests"))
    return list(zip(requests, answers(kept(folder, "answers"), requests)))


def commands(folder):
    """The accepted commands of a kept stream with their answers, in order, each once."""
    found = {}
    for message, told in exchanges(folder):
        number = re.search(rb'\{"accepted":([0-9]+)', told)
        if number:
            found.setdefault(int(number[1]), (message, told))
    return [found[number] for number in sorted(found)]


def key_of(command):
    """The key that a command carries."""
    return re.search(rb'"key"\s*:\s*"([A-Za-z0-9-]+)"', command)[1].decode()


def reports(folder):
    """The reports of a kept stream: the words that ask for each, and its bytes."""
    found = [(("custody",), kept(folder, "custody"))]
    for path in sorted(folder.iterdir()):
        word, _, number = path.name.partition("-")
        if number:
            found.append(((word, "--ceremony", number), path.read_bytes()))
    return found


def kept_tables(folder):
    """The rows of each table that the requests of a kept stream leave, in the order of their values."""
    tables, name = {name: [] for name in TABLES}, None
    for line in kept(folder, "tables").decode().splitlines():
        if line.startswith("  "):
            tables[name].append(ast.literal_eval(line.strip()))
        else:
            name = line
    return {name: sorted(rows) for name, rows in tables.items()}


# Files

def log_of(file):
    """The log beside a register's file."""
    return file.with_name(file.name + "-wal")


def contents(file):
    """The bytes of a file and of its log, None for what is not there."""
    return tuple(path.read_bytes() if path.is_file() else None for path in (file, log_of(file)))


def copy(file, target):
    """Copies a register's file and its log."""
    shutil.copyfile(file, target)
    if log_of(file).is_file():
        shutil.copyfile(log_of(file), log_of(target))
    return target


@contextlib.contextmanager
def opened(file):
    """A copy of a register's file and its log, opened by sqlite3."""
    with tempfile.TemporaryDirectory() as room, contextlib.closing(
            sqlite3.connect(copy(file, pathlib.Path(room) / "copy"))) as database:
        yield database


def change(file, *statements):
    """Changes a database in place with sqlite3, as one transaction; one that is not there is made."""
    with contextlib.closing(sqlite3.connect(file)) as database:
        with database:
            for statement in statements:
                database.execute(*((statement,) if isinstance(statement, str) else statement))


def schema():
    """The texts that make the tables of a register, in their order."""
    told = subprocess.run([sys.executable, HERE.parent / "tools" / "tables.py", "schema"], capture_output=True,
                          text=True, timeout=SECONDS, check=True)
    return told.stdout.splitlines()


def texts_in(database):
    """The texts that made what a database has, in their order."""
    return [f"{text};" for text, in database.execute("SELECT sql FROM sqlite_schema WHERE sql NOT NULL ORDER BY rowid")]


def rows_in(database):
    """The rows of each table of a register, in the order of their values."""
    return {name: sorted(database.execute(f"SELECT * FROM {name}")) for name in TABLES}


def rows_of(file):
    """The rows of each table of a register's file, as sqlite3 reads it."""
    with opened(file) as database:
        return rows_in(database)


def commands_in(file):
    """How many accepted commands a file has; none where it is not there, or is no database yet."""
    try:
        with opened(file) as database:
            return database.execute("SELECT count(*) FROM keys").fetchone()[0]
    except (FileNotFoundError, sqlite3.Error):
        return 0


def audited(program, file, what="the audit"):
    """Sees that an audit of a file finds nothing, and says so where the file is not there or has no command."""
    missing = "" if commands_in(file) else "has no command" if file.exists() else "is not there"
    note = f"note: {file} {missing}\n".encode() if missing else b""
    expect(what, (NOTHING_FOUND[0], note, 0), call(program, "audit", "--file", file))


def stored(file, tables):
    """Sees that a file is a sound register with these rows, as sqlite3 reads it."""
    with opened(file) as database:
        expect("PRAGMA integrity_check", [("ok",)], database.execute("PRAGMA integrity_check").fetchall())
        expect("the schema", schema(), texts_in(database))
        found = rows_in(database)
    for name in TABLES:
        expect(f"the table {name}", tables[name], found[name])


# Faults

def compiler():
    """A C compiler: one that is installed, or that of the toolchain; None where there is none."""
    found = next((path for name in ("cc", "gcc", "clang") if (path := shutil.which(name))), None)
    if found or not shutil.which("rt"):
        return found
    own = pathlib.Path(shutil.which("rt")).resolve().parent.parent / "toolchain" / "bin" / "clang"
    return str(own) if own.is_file() else None


@contextlib.contextmanager
def faults():
    """The library of `faults.c`, which has requests of a process fail; None where there is no C compiler."""
    with tempfile.TemporaryDirectory() as room:
        tool, library = compiler(), pathlib.Path(room) / "faults.so"
        if tool:
            subprocess.run([tool, "-shared", "-fPIC", "-O1", "-nostdlib", "-o", library, HERE / "faults.c"], check=True,
                           timeout=SECONDS)
        yield library if tool else None


def faulty(program, library, what, *words, stream=b""):
    """As `call`, where what the environment `what` says is to fail; and whether anything did."""
    with tempfile.TemporaryDirectory() as room:
        mark = pathlib.Path(room) / "failed"
        told = call(program, *words, stream=stream, env={"LD_PRELOAD": str(library), "FAILED": str(mark), **what})
        return told, mark.exists()


def with_last(test, value):
    """A test that is always given this value last."""
    @functools.wraps(test)
    def given(*values):
        return test(*values, value)
    return given


def judge_faults(tests, names, program):
    """Runs tests that take the program and the library of faults, which needs a C compiler."""
    picked = [test for test in tests if not names or test.__name__ in names]
    with faults() as library:
        if library is None:
            leave_out("C compiler", ", ".join(test.__name__ for test in picked))
            picked = []
        judge([(test.__name__, test.__doc__, functools.partial(test, program, library)) for test in picked])


# What is not installed

LEFT_OUT = []  # what the gate was to test, and lacks a tool for
DEBIAN = "/usr/lib/python3/dist-packages"  # where Debian's packages are, if another python3 comes first


def leave_out(tool, what):
    """Says that this is not tested, as a tool is not installed. By hand that is all; in the gate, where the environment
    has CI=true, `judge` then fails."""
    print(f"no {tool} here, so {what} is left out", flush=True)
    if os.environ.get("CI") == "true":
        LEFT_OUT.append(f"{what}: the gate needs {tool}")


def is_here(commands, what):
    """Whether these commands are installed, names with blanks between. The first that is not is why this is left
    out."""
    path = f"{os.environ['PATH']}:/usr/sbin"
    lacks = next((command for command in commands.split() if not shutil.which(command, path=path)), None)
    if lacks:
        leave_out(lacks, what)
    return not lacks


def debian_module(name):
    """A module of Python that a package of Debian has; None if it is not installed."""
    if DEBIAN not in sys.path:
        sys.path.append(DEBIAN)
    try:
        return importlib.import_module(name)
    except ImportError:
        return None


# Running tests

def judge_installed(tests, needs, usage):
    """Runs tests that take the program, by the words of the command line: the program, and names of tests; without a
    word it ends with the usage. `needs` has the commands of a test that needs some; it is left out where one is not
    installed."""
    if len(sys.argv) < 2:
        sys.exit(usage.strip())
    program, names = str(pathlib.Path(sys.argv[1]).resolve()), sys.argv[2:]
    judge([(test.__name__, test.__doc__, functools.partial(test, program)) for test in tests
           if (not names or test.__name__ in names) and is_here(needs.get(test, ""), test.__name__)])


def judge(tests):
    """Runs tests, each a name, what it shows and a call that takes an empty folder; prints what is wrong and the
    numbers, and ends with the status. What the gate leaves out has failed."""
    failed = 0
    for name, shows, test in tests:
        with tempfile.TemporaryDirectory() as room:
            try:
                test(pathlib.Path(room))
            except (Wrong, OSError, ValueError, subprocess.SubprocessError, sqlite3.Error) as fault:
                failed += 1
                print(f"not so: {name}: {shows}\n    {type(fault).__name__}: {fault}", flush=True)
    for line in LEFT_OUT:
        print(f"not so: {line}", flush=True)
    print(f"{len(tests) - failed} passed, {failed + len(LEFT_OUT)} failed")
    sys.exit(1 if failed or LEFT_OUT or not tests else 0)
