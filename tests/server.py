#!/usr/bin/env python3
"""The program as a server on a port of 127.0.0.1: connections one after the other, good clients and bad ones.

    tests/server.py PROGRAM [NAME ..]

Shown are: that the kept streams under tests/files get the kept answers over a connection, in one piece, in pieces of 1,
7 and 1,000 bytes, and each request over a connection of its own; that the program says where it listens, serves as many
connections as it was told and ends; that it closes where an answer closes, and where a client keeps silent, never
reads, or lasts too long; what it says of a port that is taken, of numbers out of range and of a register that breaks;
that it answers nothing more and ends once its files are removed, cut or changed, also under load; that connections
which are cut off in a request change nothing, and that a thousand bad clients leave the register, the good clients
between them and the memory that the program holds as they should be. With names only the tests with these names run.

The last line is `N passed, M failed`, and the status is 0 where none failed.
"""
import sys

sys.dont_write_bytecode = True  # no files beside these

import contextlib
import functools
import itertools
import os
import pathlib
import random
import shutil
import socket
import struct
import threading
import time

import kcr
from kcr import (GO_ON, HERE, Server, Wrong, accepted, answer, call, connect, exchange, expect, in_pieces, person,
                 request)

LINE = "listening 127.0.0.1:{}\n"
ENDED = (b"", b"", 0)
CLOSES = b"connection: close\r\n"
HEAD = answer(b"400 Bad Request", b'{"number":1,"refusal":"head"}', CLOSES)
CUT = answer(b"400 Bad Request", b'{"number":6,"refusal":"cut"}', CLOSES)
DAY = request(b"GET", b"/custodians/2025-02-13")
NOBODY = answer(b"200 OK", b'{"day":"2025-02-13","places":[]}')
PEOPLE = request(b"GET", b"/people")
ANN = person(b"k1", b"AA", b"Ann Abel")
MEMORY = answer(b"503 Service Unavailable", b'{"number":33,"refusal":"memory"}')
SPACE_STEP = 8  # kilobytes of address space from one run to the next
ANN_ALONE = answer(b"200 OK", b'{"people":[{"name":"Ann Abel","roles":[],"who":"AA"}]}')
CLIENTS = 1_000
PAUSE = 4  # seconds, less than the 5 for which a connection may be silent
MOST_KILOBYTES = 27 * 1_024


def stream(name):
    """The folder of a kept stream."""
    return HERE / "files" / name


def received(peer, length):
    """The next `length` bytes from a connection, or fewer if it ends."""
    got = b""
    while len(got) < length and (piece := peer.recv(length - len(got))):
        got += piece
    return got


# Good clients

def in_turn(program, _room):
    """Two requests in one connection, the second sent once the first was answered; then a second connection."""
    with Server(program, 2) as server:
        expect("the first line", LINE.format(server.port).encode(), server.line)
        with connect(server.port) as peer:
            peer.sendall(ANN)
            expect("the first answer", accepted(1), received(peer, len(accepted(1))))
            peer.sendall(PEOPLE)
            expect("the second answer", ANN_ALONE, received(peer, len(ANN_ALONE)))
        expect("over the second connection", ANN_ALONE + accepted(1), exchange(server.port, [PEOPLE + ANN]))
        expect("the end", ENDED, server.end())
        with contextlib.closing(socket.socket()) as peer:
            expect("whether anybody still listens", True, peer.connect_ex(("127.0.0.1", server.port)) != 0)


def one_connection(program, room):
    """A kept stream in one piece, in pieces of 1,000 bytes and of 7, and a short one in pieces of 1, over files."""
    for name, size in (("024", 1_000_000), ("009", 1_000), ("009", 7), ("006", 1)):
        file = room / f"{name}-{size}"
        pairs = kcr.exchanges(stream(name))
        pieces = in_pieces(b"".join(message for message, _ in pairs), size)
        with Server(program, 1, file) as server:
            expect(f"{name} in pieces of {size}", b"".join(told for _, told in pairs), exchange(server.port, pieces))
            expect("the end", ENDED, server.end())
        kcr.stored(file, kcr.kept_tables(stream(name)))


def many_connections(program, room):
    """Each request of a kept stream over a connection of its own: the register goes on from one to the next."""
    pairs, file = kcr.exchanges(stream("084")), room / "register"
    with Server(program, len(pairs), file) as server:
        for number, (message, told) in enumerate(pairs):
            expect(f"request {number}", told, exchange(server.port, [message]))
        expect("the end", ENDED, server.end())
    kcr.stored(file, kcr.kept_tables(stream("084")))
    expect("custody", (kcr.kept(stream("084"), "custody"), b"", 0), call(program, "custody", "--file", file))


def closing_answers(program, _room):
    """Where an answer closes, the program closes, though the client goes on listening, and serves the next."""
    closing = DAY.replace(b"Host: l\r\n", b"Host: l\r\nConnection: close\r\n")
    old = DAY.replace(b"HTTP/1.1", b"HTTP/1.0")
    told = NOBODY.replace(b"\r\n\r\n", b"\r\n" + CLOSES + b"\r\n")
    sent = [(closing, told), (old, told), (b"what?\r\n\r\n", HEAD), (DAY + closing, NOBODY + told)]
    with Server(program, len(sent)) as server:
        for text, wanted in sent:
            with connect(server.port) as peer:
                peer.sendall(text)
                expect(f"{text!r:.60}", wanted, kcr.rest_of(peer))
        expect("the end", ENDED, server.end())


def cut_connections(program, _room):
    """A request that is cut off anywhere enters nobody, and the client after it gets right answers."""
    ends = [1, 20, len(ANN) - 41, len(ANN) - 1]
    with Server(program, 4 * len(ends) + 1) as server:
        for end in ends:
            wanted = HEAD if end < len(ANN) - 41 else CUT
            expect(f"a request of {end} bytes", wanted, exchange(server.port, [ANN[:end]]))
            for linger in (False, True):
                with connect(server.port) as peer:
                    peer.sendall(ANN[:end])
                    if linger:
                        reset(peer)
            expect("the next client", answer(b"200 OK", b'{"people":[]}') + NOBODY,
                   exchange(server.port, [PEOPLE + DAY]))
        expect("the last client", accepted(1) + ANN_ALONE, exchange(server.port, [ANN + PEOPLE]))
        expect("the end", ENDED, server.end())


def says_half(peer):
    """Sends half a request and then nothing."""
    peer.sendall(ANN[:40])


def never_reads(peer):
    """Sends requests without end and takes none of the answers."""
    def pour():
        with contextlib.suppress(OSError):
            peer.sendall(PEOPLE * 300_000)
    threading.Thread(target=pour, daemon=True).start()


def drip(peer, pieces, pause):
    """Begins to send these pieces, with this pause in seconds after each, as long as anybody takes them."""
    def drop():
        with contextlib.suppress(OSError):
            for piece in pieces:
                peer.sendall(piece)
                time.sleep(pause)
    threading.Thread(target=drop, daemon=True).start()


def asks_on(peer):
    """Sends a whole question every few seconds, without end."""
    drip(peer, itertools.repeat(DAY), PAUSE)


HOLDS = {says_half: 30, never_reads: 30, asks_on: 300}  # for how many seconds each holds the desk


class Stuck:
    """A client that holds the desk, and a good one that waits behind it. It begins at once, so that the time passes
    beside the other tests."""

    def __init__(self, program, hold):
        self.seconds, self.got, self.took = HOLDS[hold], None, 0
        self.server = Server(program, 2, seconds=3_600)
        self.began = time.monotonic()
        self.stuck = connect(self.server.port)
        hold(self.stuck)
        self.good = connect(self.server.port)
        self.good.settimeout(2 * self.seconds + 60)
        kcr.send(self.good, [ANN + PEOPLE])
        self.waiting = threading.Thread(target=self.wait, daemon=True)
        self.waiting.start()

    def wait(self):
        """Notes what the good client is answered, and after how many seconds."""
        with contextlib.suppress(OSError):
            self.got = kcr.rest_of(self.good)
            self.took = time.monotonic() - self.began

    def ends(self, _room):
        """A client that holds the desk is given up after its seconds, and the one that waits behind it is served."""
        self.waiting.join()
        expect("the client behind it", accepted(1) + ANN_ALONE, self.got)
        expect(f"its wait of {self.took:.0f} seconds", True, self.seconds - 2 < self.took < 1.5 * self.seconds + 10)
        expect("the end", ENDED, self.server.end())

    def close(self):
        """Ends all of it."""
        self.stuck.close()
        self.good.close()
        self.server.__exit__()


# Words, lines and statuses

def out_of_range(program, room):
    """A port, a number of connections or of seconds out of range, or no port or number of connections, is refused with
    status 2, and no file is made."""
    good = {"--port": str(kcr.free_port()), "--connections": "1"}
    tried = [("--port", number) for number in ("0", "65536", "-1", "x", "", "8080.0")]
    tried += [("--connections", number) for number in ("0", "1000001", "-1", "x", "", "4294967297")]
    tried += [("--idle", number) for number in ("0", "301", "-1", "x", "", "0.5")]
    tried += [("--longest", number) for number in ("0", "86401", "-1", "x", "", "4294967597")]
    for option, number in [*tried, ("--port", None), ("--connections", None)]:
        words = [f"{name}={value}" for name, value in {**good, option: number}.items() if value is not None]
        output, faults, status = call(program, "serve", *words, "--file", room / "register")
        expect(f"{option} {number}", (b"", True, 2), (output, faults != b"", status))
    expect("what is made", [], os.listdir(room))


def most_connections(program, _room):
    """A million connections may be asked for."""
    with Server(program, 1_000_000) as server:
        expect("the first connection", NOBODY, exchange(server.port, [DAY]))


def taken_port(program, room):
    """A port that is taken is told with a line and status 1; the file is opened before."""
    (room / "text").write_text("no register\n" * 100)
    with socket.socket() as taken:
        taken.bind(("127.0.0.1", 0))
        taken.listen()
        port = taken.getsockname()[1]
        words = ["serve", "--connections", "1", "--port", str(port)]
        told = (b"", b"fault: net\nbinding: %d\n" % port, 1)
        expect("over memory", told, call(program, *words))
        expect("over a file", told, call(program, *words, "--file", room / "register"))
        expect("no register", (b"", f"open: disk\nreading: {room / 'text'}\n".encode(), 1),
               call(program, *words, "--file", room / "text"))
    note = f"note: {room / 'register'} has no command\n".encode()
    expect("the register that was opened", (kcr.EMPTY_CUSTODY, note, 0),
           call(program, "custody", "--file", room / "register"))


def waited(peer):
    """For how many seconds nothing came from a connection, until it was closed."""
    began = time.monotonic()
    expect("what still comes", b"", peer.recv(1))
    return time.monotonic() - began


def silent_clients(program, _room):
    """A connection that is silent is closed after the seconds of `--idle` where it has sent nothing yet or has its
    answer, and not within a message, also where it was told to go on with one."""
    head, _, body = ANN.replace(b"\r\n\r\n", b"\r\nExpect: 100-continue\r\n\r\n").partition(b"\r\n\r\n")
    with Server(program, 3, idle=1) as server:
        with connect(server.port) as peer:
            expect("nothing sent: closed in time", True, 0.5 < waited(peer) < 5)
        with connect(server.port) as peer:
            peer.sendall(DAY[:10])
            time.sleep(3)
            peer.sendall(DAY[10:])
            expect("a question in two parts", NOBODY, received(peer, len(NOBODY)))
            expect("after an answer: closed in time", True, 0.5 < waited(peer) < 5)
        with connect(server.port) as peer:
            peer.sendall(head + b"\r\n\r\n")
            expect("to go on", GO_ON, received(peer, len(GO_ON)))
            time.sleep(3)
            peer.sendall(body)
            expect("a body after a while", accepted(1), received(peer, len(accepted(1))))
        expect("the end", ENDED, server.end())


def longest_time(program, _room):
    """A connection ends after the seconds of `--longest`, without a further answer: one that asks again and again, and
    one that sends a head byte by byte. The client that waits behind it is served then, and the program goes on."""
    endless = in_pieces(b"GET /people HTTP/1.1\r\nHost: l\r\nX: " + b"a" * 1_000, 1)
    with Server(program, 5, longest=3) as server:
        for pieces, told in ((itertools.repeat(DAY), NOBODY), (endless, b"")):
            with connect(server.port) as slow:
                began = time.monotonic()
                drip(slow, pieces, 0.25)
                expect("the client behind it", NOBODY, exchange(server.port, [DAY]))
                seconds = time.monotonic() - began
                expect(f"its wait of {seconds:.1f} seconds", True, 2.5 < seconds < 10)
                got = kcr.rest_of(slow)
                count = len(got) // len(NOBODY)
                expect("the answers before", told * count, got)
                expect(f"whether {count} answers are some", told != b"", count > 3)
        expect("the next client", NOBODY, exchange(server.port, [DAY]))
        expect("the end", ENDED, server.end())


def many_wait(program, _room):
    """Behind a client that holds the desk as many wait as the system allows, here 300 or fewer."""
    count = min(300, int(pathlib.Path("/proc/sys/net/core/somaxconn").read_text()))
    with Server(program, count + 1) as server, contextlib.ExitStack() as peers:
        peers.enter_context(connect(server.port))
        for number in range(count):
            peer = peers.enter_context(socket.socket())
            peer.settimeout(0.9)  # a client whose first attempt is dropped tries again after a second
            try:
                peer.connect(("127.0.0.1", server.port))
            except OSError as error:
                raise Wrong(f"client {number} cannot wait: {error}") from None


def beyond_the_end(program, room):
    """The feed is refused after more commands than there are, and empty after the last one, in memory and over a
    file."""
    empty = b"HTTP/1.1 200 OK\r\ncontent-type: text/plain; charset=utf-8\r\ncontent-length: 0\r\n\r\n"

    def feed(method, after):
        return exchange(server.port, [request(method, b"/commands/%d" % after)])

    for file in (None, room / "register"):
        with Server(program, 13, file) as server:
            for count in (0, 1):
                for after in (count + 1, kcr.MOST_COMMANDS):
                    unknown = answer(b"404 Not Found",
                                     b'{"number":12,"refusal":"unknown","thing":"command %d"}' % after)
                    expect(f"after {after} of {count}", unknown, feed(b"GET", after))
                    head, blank, _ = unknown.partition(b"\r\n\r\n")
                    expect(f"the head after {after} of {count}", head + blank, feed(b"HEAD", after))
                expect(f"after {count} of {count}", empty, feed(b"GET", count))
                expect(f"the head after {count} of {count}", empty, feed(b"HEAD", count))
                if count == 0:
                    expect("a command", accepted(1), exchange(server.port, [ANN]))
            expect("the end", ENDED, server.end())


def slow_takers(program, _room):
    """A client that takes its answers a little at a time is waited for 30 seconds in all."""
    people = [person(b"k%d" % number, kcr.initials(number), b"Ann Abel" * 12) for number in range(300)]
    with Server(program, 3, seconds=4 * kcr.SECONDS) as server:
        exchange(server.port, people)
        with connect(server.port) as slow:
            slow.settimeout(None)
            threading.Thread(target=kcr.send, args=(slow, [PEOPLE * 500]), daemon=True).start()
            time.sleep(0.5)
            began, ended = time.monotonic(), threading.Event()

            def drip():
                with contextlib.suppress(OSError):
                    while not ended.wait(1):
                        slow.recv(10_000)

            dripping = threading.Thread(target=drip)
            dripping.start()
            expect("the next client", NOBODY, exchange(server.port, [DAY]))
            ended.set()
            dripping.join()
            seconds = time.monotonic() - began
            expect(f"after 30 seconds, and some for the answers: {seconds:.0f}", True, 20 < seconds < 120)
        expect("the end", ENDED, server.end())


def scarce_memory(program, room):
    """With whatever address space, `serve` answers a connection or ends with a line: it does not go on and close each
    connection without an answer. From the least space on with which it listens, a little more each time."""
    limited, space, answered, ended = room / "limited", 1_000, 0, 0
    while answered < 3:
        space += SPACE_STEP
        expect("a space that is enough", True, space < 100_000)
        limited.write_text(f'#!/bin/sh\nulimit -v {space} && exec "{program}" "$@"\n')
        limited.chmod(0o755)
        try:
            server = Server(str(limited), 2)
        except Wrong:  # it does not listen
            continue
        with server:
            got = b""
            with contextlib.suppress(ConnectionError):
                got = exchange(server.port, [DAY])
            if got:
                expect(f"an answer with {space} kB", True, got in (NOBODY, MEMORY))
                answered += 1
            else:
                expect(f"the end with {space} kB", (b"", b"refused: 33 memory\n", 1), server.end())
                ended += 1
    print(f"    {ended} sizes end it with a line; {space} kB of address space suffice")


def line_is_not_written(program, _room):
    """Where it cannot say that it listens, the program says so and ends with status 1."""
    with open("/dev/full", "wb") as full:
        run = kcr.subprocess.run([program, "serve", "--connections", "1", "--port", str(kcr.free_port())], stdout=full,
                                 stderr=kcr.subprocess.PIPE, timeout=kcr.SECONDS)
    expect("the end", (b"fault: write\n", 1), (run.stderr, run.returncode))


def breaking_register(program, room):
    """After a connection that leaves the register broken the program says so, and by what, and ends, with two more to
    serve."""
    file = room / "register"
    expect("run", (accepted(1), b"", 0), call(program, "run", "--file", file, stream=ANN))
    kcr.change(file, f"UPDATE people SET name = '{'x' * 121}'")
    disk = answer(b"500 Internal Server Error", b'{"number":34,"refusal":"disk"}')
    broken = answer(b"500 Internal Server Error", b'{"number":35,"refusal":"broken"}')
    with Server(program, 4, file) as server:
        expect("the first connection", NOBODY, exchange(server.port, [DAY]))
        expect("the second", NOBODY + disk + broken, exchange(server.port, [DAY + PEOPLE + DAY]))
        expect("the end", (b"", b"refused: 35 broken\nbroken: reading\n", 1), server.end())


def removed(file):
    file.unlink()


def cut(file):
    os.truncate(file, file.stat().st_size - 1)


def replaced(file):
    other = file.with_name("other")
    other.write_bytes(file.read_bytes())
    other.rename(file)


def log_removed(file):
    kcr.log_of(file).unlink()


def lost(file):
    """What the program writes after its first line once its file is lost, and its status."""
    return b"", b"fault: file\nlost: %s\n" % str(file).encode(), 1


def lost_files(program, room):
    """A file or its log is removed, cut or replaced while it is served: no command is answered any more, and the
    program says so and ends. Before, each connection is served."""
    bob = kcr.person(b"k2", b"BB", b"Bob Berg")
    for change in (removed, cut, replaced, log_removed):
        file = room / change.__name__
        with Server(program, 9, file) as server:
            expect("the first connection", accepted(1), exchange(server.port, [ANN]))
            change(file)
            expect(f"the answer to a command, {change.__name__}", b"", exchange(server.port, [bob]))
            expect(f"the end, {change.__name__}", lost(file), server.end())


class Load:
    """Clients that send commands and questions side by side, each pair over a connection of its own, until nobody
    listens."""

    def __init__(self, port, clients=4):
        self.port, self.numbers, self.answered = port, itertools.count(100), []
        self.threads = [threading.Thread(target=self.send) for _ in range(clients)]
        for thread in self.threads:
            thread.start()

    def send(self):
        """Sends commands, and notes of each that got an answer when it was sent and what came."""
        with contextlib.suppress(OSError):
            while True:
                number = next(self.numbers)
                command = person(b"k%d" % number, *named(number))
                sent = time.monotonic()
                if got := exchange(self.port, [command + DAY]):
                    self.answered.append((sent, got))

    def sent_after(self, moment):
        """What was answered to commands that were sent after a moment."""
        return [got for sent, got in list(self.answered) if sent > moment]

    def end(self):
        """Waits until nobody listens any more."""
        for thread in self.threads:
            thread.join(kcr.SECONDS)
            expect("whether a client still sends", False, thread.is_alive())


def older_files(file, older):
    """Copies both older files over those that are served, as `cp` does."""
    shutil.copyfile(older, file)
    shutil.copyfile(kcr.log_of(older), kcr.log_of(file))


def older_log(file, older):
    """Copies the older log alone."""
    shutil.copyfile(kcr.log_of(older), kcr.log_of(file))


def halved_log(file, _older):
    """Cuts the log to half its length."""
    os.truncate(kcr.log_of(file), kcr.log_of(file).stat().st_size // 2)


def emptied_log(file, _older):
    """Cuts the log to nothing."""
    os.truncate(kcr.log_of(file), 0)


def salts(file):
    """The salts in the head of a log, which change when it is begun anew."""
    with kcr.log_of(file).open("rb") as log:
        return log.read(24)[16:]


def changed_files(program, room):
    """An older file and log, or an older log, are copied over those that are served, or the log is cut to half or to
    nothing, while clients send commands; soon after the copy, and once the log was begun anew. No command that is sent
    after that is answered, and the program says so and ends."""
    for is_anew, deed in itertools.product((False, True), (older_files, older_log, halved_log, emptied_log)):
        what = f"{deed.__name__}{', a log begun anew' * is_anew}"
        file = room / f"{deed.__name__}-{is_anew}"
        with Server(program, 1_000_000, file) as server:
            for number in range(10):
                expect(f"command {number}, {what}", accepted(number + 1),
                       exchange(server.port, [person(b"k%d" % number, *named(number))]))
            older = kcr.copy(file, room / f"{file.name}-older")
            load = Load(server.port)
            while len(load.answered) < 30 or is_anew and salts(file) == salts(older):
                expect(f"how the program ended before, {what}", None, server.run.poll())
                time.sleep(0.01)
            deed(file, older)
            done = time.monotonic()
            while server.run.poll() is None and not load.sent_after(done):
                time.sleep(0.01)
            expect(f"what is answered after it, {what}", [], load.sent_after(done))
            expect(f"the end, {what}", lost(file), server.end())
        load.end()
        expect(f"what is answered in the end, {what}", [], load.sent_after(done))


# Bad clients

def reset(peer):
    """Closes a connection so that the other side is told of a reset."""
    peer.setsockopt(socket.SOL_SOCKET, socket.SO_LINGER, struct.pack("ii", 1, 0))
    peer.close()


def nonsense(peer, rng):
    """Random bytes."""
    kcr.send(peer, [b"\x80" + rng.randbytes(rng.randrange(4_000))])
    expect("the answer to random bytes", HEAD, kcr.rest_of(peer))


def nonsense_behind(peer, rng):
    """Two good requests, and random bytes behind them."""
    kcr.send(peer, [DAY + DAY + b"\x80" + rng.randbytes(rng.randrange(4_000))])
    expect("the answer to random bytes behind requests", NOBODY + NOBODY + HEAD, kcr.rest_of(peer))


def endless_head(peer, rng):
    """A head that does not end within 20 kB: one field, many, or empty lines."""
    begin, more = rng.choice([(b"GET /people HTTP/1.1\r\nHost: l\r\nX: ", b"a"), (b"GET ", b"/"), (b"", b"\n"),
                              (b"GET /people HTTP/1.1\r\n", b"Host: l\r\n")])
    text = begin + more * (rng.randrange(9_000, 20_000) // len(more))
    kcr.send(peer, in_pieces(text, 1_000))
    kcr.rest_of(peer)


def missing_body(peer, rng):
    """A body that never comes, or a part of it."""
    length = rng.randrange(1, 131_072)
    kcr.send(peer, [b"POST /people HTTP/1.1\r\nHost: l\r\nContent-Length: %d\r\n\r\n" % length,
                    rng.randbytes(rng.randrange(min(length, 2_000)))])
    expect("the answer to a part of a body", CUT, kcr.rest_of(peer))


def body_after_leave(peer, _rng):
    """A body that waits to be asked for, and then does not come."""
    peer.sendall(ANN[:-41].replace(b"Host: l\r\n", b"Host: l\r\nExpect: 100-continue\r\n"))
    expect("the leave to go on", GO_ON, received(peer, len(GO_ON)))


def reset_in_answer(peer, rng):
    """A reset in the middle of a long answer."""
    peer.sendall(PEOPLE * rng.randrange(1, 4))
    received(peer, rng.randrange(1, 2_000))
    reset(peer)


def reset_in_request(peer, rng):
    """A reset in the middle of a request."""
    peer.sendall(ANN[:rng.randrange(1, len(ANN))])
    reset(peer)


def reset_unread(peer, _rng):
    """A reset behind a request whose answer nobody reads."""
    peer.sendall(PEOPLE)
    reset(peer)


def nothing(_peer, _rng):
    """Not a byte."""


BAD = [nonsense, nonsense_behind, endless_head, missing_body, body_after_leave, reset_in_answer, reset_in_request,
       reset_unread, nothing]


def named(number):
    """The initials and the name of the number-th person."""
    return kcr.initials(number), b"Person %d of them" % number


def people_shown(count):
    """The answer with the first `count` people."""
    return answer(b"200 OK", b'{"people":[%s]}' % b",".join(
        b'{"name":"%s","roles":[],"who":"%s"}' % (name, who) for who, name in map(named, range(count))))


def bad_clients(program, room, clients=CLIENTS):
    """A thousand bad clients, each tenth with a good one behind it, over a register of a thousand people in a file."""
    file, rng, count = room / "register", random.Random(13), 1_000
    entered = b"".join(person(b"k%d" % number, *named(number)) for number in range(count))
    expect("the people", (b"".join(accepted(number + 1) for number in range(count)), b"", 0),
           call(program, "run", "--file", file, stream=entered))
    goods = clients // 10
    with Server(program, clients + goods + 1, file, seconds=3_600) as server:
        for number in range(clients):
            bad = BAD[number % len(BAD)]
            with connect(server.port) as peer, contextlib.suppress(ConnectionError):
                bad(peer, rng)
            if number % 10 == 9:
                expect(f"good client {number // 10}, behind {bad.__name__}", accepted(count + 1) + NOBODY,
                       exchange(server.port, [person(b"k%d" % count, *named(count)) + DAY]))
                count += 1
        peak = server.peak()
        expect("everybody", people_shown(count), exchange(server.port, [PEOPLE]))
        expect("the end", ENDED, server.end())
    with kcr.opened(file) as database:
        expect("PRAGMA integrity_check", [("ok",)], database.execute("PRAGMA integrity_check").fetchall())
        expect("people", [tuple(text.decode() for text in named(number)) for number in range(count)],
               database.execute("SELECT who, name FROM people ORDER BY who").fetchall())
    expect("audit", kcr.NOTHING_FOUND, call(program, "audit", "--file", file))
    if peak > MOST_KILOBYTES:
        raise kcr.Wrong(f"the program held {peak} kB, more than {MOST_KILOBYTES}")


TESTS = [in_turn, one_connection, many_connections, closing_answers, cut_connections, out_of_range, most_connections,
         taken_port, silent_clients, longest_time, many_wait, beyond_the_end, slow_takers, scarce_memory,
         line_is_not_written, breaking_register, lost_files, changed_files, bad_clients]


def main():
    if len(sys.argv) < 2:
        sys.exit(__doc__)
    program, names = str(pathlib.Path(sys.argv[1]).resolve()), sys.argv[2:]
    tests = [(test.__name__, test.__doc__, functools.partial(test, program)) for test in TESTS]
    with contextlib.ExitStack() as stack:
        for hold in HOLDS:
            if not names or hold.__name__ in names:
                stuck = stack.enter_context(contextlib.closing(Stuck(program, hold)))
                tests.append((hold.__name__, Stuck.ends.__doc__, stuck.ends))
        kcr.judge([test for test in tests if not names or test[0] in names])


if __name__ == "__main__":
    main()
