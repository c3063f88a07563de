#!/usr/bin/python3
"""Serves the desk's page on 127.0.0.1, and hands the register's paths on to the register.

    page/serve.py [--port 8080] [--register 8053]

The page is then at http://127.0.0.1:8080/. It is for trying the page, and for a desk that is one machine with one user.
For all else use nginx (docs/OPERATING.md): this program knows neither TLS nor users.

Each request to the register gets a connection of its own, since `kcr serve` handles one at a time. Refused are: a Host
other than 127.0.0.1 and localhost with this port (421), an Origin other than these (403), a POST that is not
application/json (415), a body of more than 131,072 bytes (413), a target with other than printable ASCII and two fields
Content-Length or Content-Type (400). Only the files of the page are served. If the register does not answer, the status
is 502: then it is not known whether a command was executed. A connection ends 60 seconds after its last answer, however
slowly a request comes. At most 64 are served at once; the next ones are closed.
"""
import argparse
import contextlib
import http.client
import http.server
import io
import pathlib
import re
import sys
import threading
import time

HERE = pathlib.Path(__file__).resolve().parent
TYPES = {".html": "text/html; charset=utf-8", ".css": "text/css; charset=utf-8",
         ".js": "text/javascript; charset=utf-8", ".svg": "image/svg+xml"}
FILE = re.compile(r"/page/([a-z_]+\.[a-z]+)?")
JSON = re.compile(r"application/json *(;|$)")
TARGET = re.compile(r"[!-~]+")  # printable ASCII
MOST_BYTES = 131_072
MOST_CONNECTIONS = 64
SECONDS = 60  # from an answer, or the beginning of a connection, to the end of the next answer
SAFE = {
    "Content-Security-Policy": "default-src 'self'; base-uri 'none'; form-action 'none'; frame-ancestors 'none'; "
                               "object-src 'none'",
    "X-Content-Type-Options": "nosniff",
    "Referrer-Policy": "no-referrer",
    "Cross-Origin-Resource-Policy": "same-origin",
    "Cache-Control": "no-store",
}
KEPT = ("content-type", "allow")  # fields of the register's answers


class Timed(io.RawIOBase):
    """Reads from a connection until the time of a request is over."""

    def __init__(self, line):
        super().__init__()
        self.line, self.end = line, 0

    def begin(self):
        """Begins the time of a request."""
        self.end = time.monotonic() + SECONDS

    def left(self):
        """The seconds that are left, which are the connection's timeout from now on."""
        left = self.end - time.monotonic()
        if left <= 0:
            raise TimeoutError
        self.line.settimeout(left)
        return left

    def readable(self):
        return True

    def readinto(self, place):
        self.left()
        return self.line.recv_into(place)


class Desk(http.server.BaseHTTPRequestHandler):
    """Answers one connection of the browser."""

    protocol_version = "HTTP/1.1"
    server_version = "kcr-desk"
    sys_version = ""

    def setup(self):
        super().setup()
        self.timed = Timed(self.connection)
        self.rfile = io.BufferedReader(self.timed)

    def handle_one_request(self):
        self.timed.begin()
        super().handle_one_request()

    def answer(self, status, body, fields):
        """Sends an answer with the fields that keep a browser safe."""
        self.send_response(status)
        for name, value in {**SAFE, "Content-Length": str(len(body)), **fields}.items():
            self.send_header(name, value)
        self.end_headers()
        if self.command != "HEAD":
            self.wfile.write(body)

    def refuse(self, status, text):
        """Refuses a request before it reaches the register. The connection ends, as its body is not read."""
        self.close_connection = True
        self.answer(status, f"{text}\n".encode(), {"Content-Type": "text/plain; charset=utf-8", "Connection": "close"})

    def foreign(self):
        """Refuses what no page sends, and what a foreign one can send. Returns whether it did."""
        port = self.server.server_port
        hosts = [name if port == 80 else f"{name}:{port}" for name in ("127.0.0.1", "localhost")]
        origins = [f"http://{host}" for host in hosts]
        named = self.headers.get_all("Host", [])
        if not TARGET.fullmatch(self.path):
            self.refuse(400, "a target is printable ASCII")
        elif any(len(self.headers.get_all(name, [])) > 1 for name in ("Content-Length", "Content-Type")):
            self.refuse(400, "a Content-Length or a Content-Type is given twice")
        elif len(named) != 1 or named[0] not in hosts:
            self.refuse(421, "another Host")
        elif any(origin not in origins for origin in self.headers.get_all("Origin", [])):
            self.refuse(403, "a foreign Origin")
        elif self.command == "POST" and not JSON.match(self.headers.get("Content-Type", "")):
            self.refuse(415, "a POST is application/json")
        elif "Transfer-Encoding" in self.headers:
            self.refuse(411, "a body has a Content-Length")
        else:
            return False
        return True

    def body(self):
        """The body of the request; None if it is refused, or not whole."""
        length = self.headers.get("Content-Length", "0")
        if not re.fullmatch("[0-9]{1,9}", length):
            self.refuse(400, "a Content-Length is a number")
        elif int(length) > MOST_BYTES:
            self.refuse(413, f"a body has at most {MOST_BYTES} bytes")
        else:
            found = self.rfile.read(int(length))
            if len(found) == int(length):
                return found
            self.close_connection = True
        return None

    def file(self, name):
        """Serves a file of the page."""
        path = HERE / (name or "index.html")
        if path.suffix not in TYPES or not path.is_file():
            self.answer(404, b"no such file\n", {"Content-Type": "text/plain; charset=utf-8"})
            return
        self.answer(200, path.read_bytes(), {"Content-Type": TYPES[path.suffix]})

    def hand_on(self, body):
        """Asks the register over a connection of its own, and passes its answer on."""
        asked = http.client.HTTPConnection("127.0.0.1", self.server.register, timeout=self.timed.left())
        try:
            with contextlib.closing(asked):
                asked.putrequest(self.command, self.path, skip_host=True, skip_accept_encoding=True)
                for name, value in (("Host", "kcr"), ("Connection", "close"), ("Content-Length", str(len(body)))):
                    asked.putheader(name, value)
                asked.endheaders(body)
                asked_line = asked.sock
                got, told = asked.getresponse(), b""
                while not got.isclosed():
                    asked_line.settimeout(self.timed.left())
                    told += got.read(65_536)
        except (OSError, http.client.HTTPException):
            self.answer(502, b"the register did not answer\n", {"Content-Type": "text/plain; charset=utf-8"})
            return
        kept = KEPT + (("content-length",) if self.command == "HEAD" else ())
        self.answer(got.status, told, {name.title(): got.headers[name] for name in kept if name in got.headers})

    def handle_one(self):
        """Answers a request."""
        body = None if self.foreign() else self.body()
        if body is None:
            return
        path, reads = self.path.split("?")[0], self.command in ("GET", "HEAD")
        if path == "/" and reads:
            self.answer(302, b"", {"Location": "/page/"})
        elif (found := FILE.fullmatch(path)) and reads:
            self.file(found[1])
        else:
            self.hand_on(body)

    do_GET = do_HEAD = do_POST = handle_one

    def log_message(self, *_):
        """Writes no log: bodies and paths have names of people."""


class Server(http.server.ThreadingHTTPServer):
    """Answers each connection in a thread of its own. `register` is the register's port."""

    daemon_threads = True
    register = 0

    def __init__(self, *given):
        super().__init__(*given)
        self.room = threading.BoundedSemaphore(MOST_CONNECTIONS)

    def process_request(self, request, client_address):
        """Answers a connection in a thread of its own, or closes it if there are too many."""
        if self.room.acquire(blocking=False):
            super().process_request(request, client_address)
        else:
            self.shutdown_request(request)

    def process_request_thread(self, request, client_address):
        """Answers a connection, and makes room for another."""
        try:
            super().process_request_thread(request, client_address)
        finally:
            self.room.release()

    def handle_error(self, request, client_address):
        """Says nothing of a browser that went away."""
        if not isinstance(sys.exc_info()[1], OSError):
            super().handle_error(request, client_address)


def number(text):
    """A port."""
    found = int(text)
    if not 0 <= found <= 65_535:
        raise argparse.ArgumentTypeError("a port is a number up to 65535")
    return found


def main():
    words = argparse.ArgumentParser(description="Serves the desk's page on 127.0.0.1, before a register.")
    words.add_argument("--port", type=number, default=8080, help="where the page is served (0: any free port)")
    words.add_argument("--register", type=number, default=8053, help="the port of kcr serve")
    given = words.parse_args()
    try:
        server = Server(("127.0.0.1", given.port), Desk)
    except OSError as fault:
        sys.exit(f"serve.py: port {given.port}: {fault.strerror}")
    server.register = given.register
    print(f"page http://127.0.0.1:{server.server_port}/", flush=True)
    with contextlib.suppress(KeyboardInterrupt):
        server.serve_forever()


if __name__ == "__main__":
    main()
