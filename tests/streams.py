#!/usr/bin/env python3
"""Streams whose cut into reads, moment or end matters, played to a program.

    tests/streams.py PROGRAM

Standard input is a socket that keeps the borders of its pieces, so that each piece is one read. Shown are: that no
cut into reads and no slow reader changes a byte; what each front of a stream is answered; that an answer goes out
before more is asked for, and `100 Continue` before the body; that answers which were asked for together go out
together; that a stream without end is answered up to the bound on reads; and what the program says and leaves where a
read or a write fails, each write of a stream in turn. Where it fails within an answer is a matter of the proved tests of
kcr_tests.

The last line is `N passed, M failed`, and the status is 0 where none failed.
"""
import sys

sys.dont_write_bytecode = True  # no files beside these

import os
import pathlib
import socket
import subprocess
import tempfile
import threading

import kcr

SECONDS = 60
HEAD = (b"HTTP/1.1 400 Bad Request\r\ncontent-type: application/json\r\ncontent-length: 29\r\n"
        b"connection: close\r\n\r\n{\"number\":1,\"refusal\":\"head\"}")
CUT = (b"HTTP/1.1 400 Bad Request\r\ncontent-type: application/json\r\ncontent-length: 28\r\n"
       b"connection: close\r\n\r\n{\"number\":6,\"refusal\":\"cut\"}")
GO_ON = b"HTTP/1.1 100 Continue\r\n\r\n"
POST = (b"POST /people HTTP/1.1\r\nHost: l\r\nContent-Length: 41\r\n\r\n"
        b"{\"key\":\"k1\",\"who\":\"AA\",\"name\":\"Ann Abel\"}")
GET = b"GET /people HTTP/1.1\r\nHost: l\r\n\r\n"
ACCEPTED = (b"HTTP/1.1 200 OK\r\ncontent-type: application/json\r\ncontent-length: 14\r\n\r\n"
            b"{\"accepted\":1}")
LISTED = (b"HTTP/1.1 200 OK\r\ncontent-type: application/json\r\ncontent-length: 54\r\n\r\n"
          b"{\"people\":[{\"name\":\"Ann Abel\",\"roles\":[],\"who\":\"AA\"}]}")
NOBODY = (b"HTTP/1.1 200 OK\r\ncontent-type: application/json\r\ncontent-length: 13\r\n\r\n"
          b"{\"people\":[]}")


def send(stream, pieces):
    """Sends each piece by itself, as long as anybody takes it."""
    try:
        for piece in pieces:
            stream.send(piece)
    except OSError:
        pass
    stream.close()


def pieces_of(stream):
    """The pieces that come over a socket which keeps their borders, until it ends."""
    while piece := stream.recv(1_000_000):
        yield piece


def written(program, pieces):
    """What the program writes, a piece for each write, where each of these pieces is one read."""
    ours, theirs = socket.socketpair(socket.AF_UNIX, socket.SOCK_SEQPACKET)
    output, told = socket.socketpair(socket.AF_UNIX, socket.SOCK_SEQPACKET)
    with theirs, told:
        run = subprocess.Popen([program, "run"], stdin=theirs, stdout=told)
    guard = threading.Timer(SECONDS, run.kill)
    guard.start()
    threading.Thread(target=send, args=(ours, pieces), daemon=True).start()
    with output:
        found = list(pieces_of(output))
    guard.cancel()
    return found, run.wait()


def played(program, pieces, *words, env=None):
    """What the program writes and its status, where each of these pieces is one read."""
    ours, theirs = socket.socketpair(socket.AF_UNIX, socket.SOCK_SEQPACKET)
    with theirs:
        run = subprocess.Popen([program, "run", *words], stdin=theirs, stdout=subprocess.PIPE, stderr=subprocess.PIPE,
                               env=env)
    sender = threading.Thread(target=send, args=(ours, pieces), daemon=True)
    sender.start()
    output, faults = run.communicate(timeout=SECONDS)
    return output, faults, run.returncode


def bytes_of(text):
    """The text in pieces of one byte."""
    return (text[i:i + 1] for i in range(len(text)))


def any_cut(program):
    """A POST and a GET cut at every place into two reads, and one byte a read."""
    cuts = [[POST + GET]] + [[(POST + GET)[:i], (POST + GET)[i:]] for i in range(1, len(POST + GET))]
    wanted = (ACCEPTED + LISTED, b"", 0)
    return all(played(program, cut) == wanted for cut in cuts) and played(program, bytes_of(POST + GET)) == wanted


def any_front(program):
    """A POST and a GET that end at every place: each front is answered by its whole messages and its end."""
    head = len(POST) - 41
    for end in range(len(POST + GET)):
        if end == 0:
            wanted = b""
        elif end < head:
            wanted = HEAD
        elif end < len(POST):
            wanted = CUT
        else:
            wanted = ACCEPTED if end == len(POST) else ACCEPTED + HEAD
        if played(program, [(POST + GET)[:end]] if end else []) != (wanted, b"", 0):
            return False
    return True


def slow_cases(program):
    """The cases of heads and bodies at their limits and of faulty heads, one byte a read."""
    names = ["head-of-8192-bytes", "head-of-8193-bytes", "fields-64", "fields-65", "empty-lines-of-8192-bytes",
             "empty-lines-without-end", "two-hosts", "two-lengths", "length-with-a-sign", "transfer-coding",
             "body-too-large", "body-cut-short", "head-cut-short", "continue", "http-1.0-closes"]
    return all(played(program, bytes_of(kcr.case_file(name).read_bytes()))
               == (kcr.case_file(f"{name}.stdout").read_bytes(), b"", 0) for name in names)


def told_in_turn(program, turns):
    """Whether each text, sent by itself, is answered so before anything more is sent."""
    run = subprocess.Popen([program, "run"], stdin=subprocess.PIPE, stdout=subprocess.PIPE, bufsize=0)
    guard = threading.Timer(SECONDS, run.kill)
    guard.start()
    try:
        for text, answer in turns:
            run.stdin.write(text)
            got = b""
            while len(got) < len(answer):
                piece = run.stdout.read(len(answer) - len(got))
                if not piece:
                    return False
                got += piece
            if got != answer:
                return False
        run.stdin.close()
        return run.stdout.read() == b"" and run.wait() == 0
    finally:
        guard.cancel()
        run.kill()


def answers_at_once(program):
    """Once a message is whole its answer is written, before another read."""
    return told_in_turn(program, [(POST, ACCEPTED), (GET, LISTED), (POST, ACCEPTED)])


def continue_at_once(program):
    """`100 Continue` is written before the body is asked for."""
    head, body = POST[:-41], POST[-41:]
    waiting = head[:-2] + b"Expect: x, 100-Continue \r\n\r\n"
    return told_in_turn(program, [(waiting, GO_ON), (body, ACCEPTED)])


def answers_together(program):
    """The answers to what one read gave are one write, and those to what two reads gave are two."""
    head, body = POST[:-41], POST[-41:]
    waiting = head[:-2] + b"Expect: 100-continue\r\n\r\n"
    told = {(POST + GET,): [ACCEPTED + LISTED], (POST, GET): [ACCEPTED, LISTED], (GET + b"?\r\n\r\n",): [NOBODY + HEAD],
            (waiting + body,): [GO_ON + ACCEPTED], (waiting, body): [GO_ON, ACCEPTED], (waiting,): [GO_ON, CUT]}
    return all(written(program, pieces) == (wanted, 0) for pieces, wanted in told.items())


def full_pages(program):
    """Answers that are more than a page of 4,096 bytes are several writes, where the next head or body finds no room; a
    body that is longer than a page is one by itself."""
    people = [(kcr.initials(number), b"%03d " % number + 100 * b"x") for number in range(40)]
    posts = [kcr.person(b"k%d" % number, who, name) for number, (who, name) in enumerate(people)]
    shown = b'{"people":[%s]}' % b",".join(b'{"name":"%s","roles":[],"who":"%s"}' % (name, who) for who, name in people)
    head = kcr.answer(b"200 OK", shown)[:-len(shown)]
    told = [kcr.accepted(number + 1) for number in range(len(people))] + [ACCEPTED + head, shown, ACCEPTED]
    return (written(program, [120 * GET]) == ([46 * NOBODY, 46 * NOBODY, 28 * NOBODY], 0)
            and written(program, posts + [posts[0] + GET + posts[0]]) == (told, 0))


def endless_messages(program):
    """A message of 131,129 bytes again and again, one byte a read: seven answers, and then the bound on reads."""
    message = b"GET /people HTTP/1.1\r\nHost: l\r\nContent-Length: 131072\r\n\r\n" + bytes(131_072)
    pieces = (piece for _ in range(9) for piece in bytes_of(message))
    return played(program, pieces) == (7 * NOBODY, b"fault: read\n", 1)


def endless_empty_lines(program):
    """Empty lines without end get one refusal."""
    return played(program, (b"\n" for _ in range(100_000))) == (HEAD, b"", 0)


def read_fails(program):
    """A read that fails: nothing is written, and the program says so."""
    folder = os.open("/", os.O_RDONLY)
    run = subprocess.run([program, "run"], stdin=folder, capture_output=True, timeout=SECONDS)
    os.close(folder)
    return (run.stdout, run.stderr, run.returncode) == (b"", b"fault: read\n", 1)


def write_fails(program):
    """A write that fails: the program says so."""
    with open("/dev/full", "wb") as full:
        run = subprocess.run([program, "run"], input=GET, stdout=full, stderr=subprocess.PIPE, timeout=SECONDS)
    return (run.stderr, run.returncode) == (b"fault: write\n", 1)


def each_write_fails(program):
    """A case whose messages come one a read, over a file: the Nth write fails, for each N. The answers before it are
    out, the program says so, and the file has the commands up to the one whose answer did not come out."""
    requests, answers = kcr.case("entered-and-listed"), kcr.case_answers("entered-and-listed")
    with kcr.faults() as library, tempfile.TemporaryDirectory() as room:
        if library is None:
            kcr.leave_out("C compiler", "each_write_fails")
            return True
        for passed in range(len(answers) + 1):
            file = pathlib.Path(room) / f"register-{passed}"
            told = played(program, requests, "--file", str(file), env={"LD_PRELOAD": str(library), "OUTPUT": str(passed)})
            end = (b"", 0) if passed == len(answers) else (b"fault: write\n", 1)
            done = sum(b'{"accepted":' in answer for answer in answers[:passed + 1])
            if told != (b"".join(answers[:passed]), *end) or kcr.commands_in(file) != done:
                return False
    return len(answers) > 1


TESTS = [any_cut, any_front, slow_cases, answers_at_once, continue_at_once, answers_together, full_pages,
         endless_messages, endless_empty_lines, read_fails, write_fails, each_write_fails]


def main():
    if len(sys.argv) != 2:
        sys.exit(__doc__)
    program = str(pathlib.Path(sys.argv[1]).resolve())
    failed = 0
    for test in TESTS:
        if not test(program):
            failed += 1
            print(f"not so: {test.__name__}: {test.__doc__}")
    print(f"{len(TESTS) - failed} passed, {failed + len(kcr.LEFT_OUT)} failed")
    sys.exit(1 if failed or kcr.LEFT_OUT else 0)


if __name__ == "__main__":
    main()
