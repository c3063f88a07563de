"""What `page/serve.py` refuses and bounds. `page.py` runs these tests."""
import contextlib
import http.client
import pathlib
import time

import desk
import kcr
from desk import Served, contains
from kcr import Wrong, expect


def asked(served, method, path, body=None, **fields):
    """What `serve.py` answers: status, fields and body."""
    line = http.client.HTTPConnection("127.0.0.1", served.port, timeout=kcr.SECONDS)
    with contextlib.closing(line):
        line.putrequest(method, path, skip_host=True)
        named = {"Host": f"127.0.0.1:{served.port}"} | {name.replace("_", "-"): told for name, told in fields.items()}
        if body is not None:
            named.setdefault("Content-Length", str(len(body)))
        for name, told in named.items():
            for one in told if isinstance(told, list) else [told]:
                if one is not None:
                    line.putheader(name, one)
        line.endheaders(body)
        got = line.getresponse()
        return got.status, dict(got.headers), got.read()


def refuses_foreigners(program, _room):
    """serve.py refuses a foreign Host or Origin, a POST that is not JSON and a long one, and serves the page's files
    only; what it hands on gets the register's answer; its answers carry the fields that keep a browser safe."""
    ann = b'{"key":"k1","who":"AA","name":"Ann Abel"}'
    with kcr.Server(program, 100) as register, contextlib.closing(Served(register.port)) as served:
        own, plain = f"http://localhost:{served.port}", "application/json"
        tries = [
            (421, {"Host": "kcr.example"}), (421, {"Host": f"127.0.0.1:{served.port + 1}"}), (421, {"Host": None}),
            (403, {"Origin": "http://evil.example"}), (403, {"Origin": "null"}),
            (403, {"Origin": f"http://localhost:{served.port + 1}"}), (415, {"Content_Type": "text/plain"}),
            (415, {"Content_Type": "application/jsonp"}), (415, {"Content_Type": None}),
            (413, {"Content_Length": "131073"}), (400, {"Content_Length": "x"}),
            (400, {"Content_Length": [str(len(ann)), str(len(ann))]}), (400, {"Content_Type": [plain, plain]}),
        ]
        for status, fields in tries:
            got = asked(served, "POST", "/people", ann, **{"Content_Type": plain, **fields})
            expect(f"the status with {fields}", status, got[0])
        expect("people", b'{"people":[]}', asked(served, "GET", "/people")[2])
        expect("a command", (200, b'{"accepted":1}'), asked(served, "POST", "/people", ann, Origin=own,
                                                            Content_Type="application/json; charset=utf-8")[::2])
        status, fields, body = asked(served, "HEAD", "/people")
        expect("a HEAD", (200, b"", "54"), (status, body, fields["Content-Length"]))
        status, fields, _ = asked(served, "GET", "/boxes")
        expect("a refusal", (405, "POST"), (status, fields["Allow"]))
        for path in ("/page/serve.py", "/page/none.js", "/page/../README.md", "/page/%2e%2e/README.md"):
            status, _, body = asked(served, "GET", path)
            if status != 404 or b"import" in body:
                raise Wrong(f"{path} gets {status}")
        for path in ("/page/", "/page/main.js", "/page/style.css", "/people"):
            status, fields, _ = asked(served, "GET", path)
            expect(f"the status of {path}", 200, status)
            contains(f"the policy of {path}", "default-src 'self'", fields["Content-Security-Policy"])
            expect(f"sniffing of {path}", "nosniff", fields["X-Content-Type-Options"])
    with contextlib.closing(Served(kcr.free_port())) as served:
        expect("without a register", 502, asked(served, "GET", "/people")[0])


def raw(served, *pieces, pause=0.0):
    """What `serve.py` answers to these bytes."""
    with kcr.connect(served.port) as peer:
        with contextlib.suppress(OSError):  # it may close before all is sent
            for piece in pieces:
                peer.sendall(piece)
                time.sleep(pause)
        return kcr.rest_of(peer)


def bounds_requests(program, _room):
    """serve.py refuses a target that is not printable ASCII, serves at most 64 connections at once (here 8), and ends
    one whose request drips, 60 seconds after it began (here 3)."""
    hurry = desk.SERVE.replace("serve.main()", "serve.SECONDS = 3; serve.MOST_CONNECTIONS = 8; serve.main()")
    with kcr.Server(program, 100) as register, contextlib.closing(Served(register.port, pathlib.Path("/"),
                                                                        hurry)) as served:
        host = b"Host: 127.0.0.1:%d\r\nConnection: close\r\n\r\n" % served.port
        for target in (b"/page/\xc3\xa4", b"/people\x7f", b"/people\x01", b"/page/\x00main.js"):
            got = raw(served, b"GET " + target + b" HTTP/1.1\r\n" + host)
            if not got.startswith(b"HTTP/1.1 400 "):
                raise Wrong(f"{target!r} gets {got:.100!r}")
        many = [kcr.connect(served.port) for _ in range(8)]
        time.sleep(0.5)
        expect("one connection too many", b"", raw(served, b"GET /page/ HTTP/1.1\r\n" + host))
        begun = time.monotonic()
        expect("a connection without a request", b"", kcr.rest_of(many[0]))
        for peer in many:
            expect("the others", b"", kcr.rest_of(peer))
            peer.close()
        expect("a request that drips", b"", raw(served, *[b"G"] * 40, pause=0.1))
        if time.monotonic() - begun > 20:
            raise Wrong("the connections lasted longer than they may")
        expect("a page", True, raw(served, b"GET /page/ HTTP/1.1\r\n" + host).startswith(b"HTTP/1.1 200 "))
