"""The certificates and the proxy that docs/OPERATING.md prints, for `operating.py`: openssl makes the certificates by
the printed commands, and nginx runs the printed text. Only folders and ports differ.
"""
import contextlib
import json
import os
import re
import shutil
import ssl
import subprocess
import time

import kcr
from kcr import SECONDS, expect
from machine import PAGE, TOP

NGINX = """user root; daemon off; pid {room}/pid; error_log {room}/error.log; events {{}}
http {{ {temporary} include {room}/kcr.conf; }}"""
NAMES = {  # each client's name, as openssl takes it; those of the first three are the desk's
    "desk": "/O=Example/CN=ceremony-desk",
    "turned": "/CN=ceremony-desk/O=Example",
    "longer": "/O=Example/OU=Desk/CN=ceremony-desk/ST=Virginia",
    "reader": "/O=Example/CN=reader",
    "other": "/O=Example/CN=ceremony-desk2",
    "sly": "/O=Example/CN=x,CN=ceremony-desk",
    "slyer": "/O=CN=ceremony-desk/CN=x",
}
JSON = "Content-Type: application/json"
COMMAND = b'{"key":"k%d","who":"%s","name":"Jo \\"J\\" \xc3\xa9","more":"' + b"x" * 120_000 + b'"}'
PROXIED = [  # who asks, the method, the header fields, and the status
    ("desk", "POST", (JSON,), 200),
    ("turned", "POST", (JSON + "; charset=utf-8",), 200),
    ("longer", "POST", (JSON, "Origin: https://kcr.example"), 200),
    ("desk", "POST", (JSON, "Origin: https://evil.example"), 403),
    ("desk", "POST", (JSON, "Origin: null"), 403),
    ("desk", "POST", (JSON, "Host: evil.example"), 421),
    ("desk", "POST", ("Content-Type: text/plain",), 415),
    ("desk", "POST", ("Content-Type: application/jsonx",), 415),
    ("desk", "POST", (), 415),
    ("desk", "PUT", (JSON,), 403),
    ("desk", "GET", ("Origin: https://evil.example",), 403),
    ("reader", "GET", (), 200),
    ("reader", "HEAD", (), 200),
    ("reader", "POST", (JSON,), 403),
    ("other", "POST", (JSON,), 403),
    ("sly", "POST", (JSON,), 403),
    ("slyer", "POST", (JSON,), 403),
]


def printed(heading, kind):
    """The first block of this kind under a heading of the page."""
    text = PAGE.read_text(encoding="utf-8").partition(f"\n## {heading}\n")[2]
    return re.search(rf"(?ms)^```{kind}\n(.*?)^```$", text)[1]


def certify(room):
    """Makes the printed certificates, and one for each other client as the page says: by the desk's command, with
    another name and other files."""
    text = printed("A proxy in front", "sh certificates")
    desk = text[text.rindex("openssl req"):]
    expect("the printed commands", 3, text.count("openssl req -x509 "))
    subprocess.run(["sh", "-euc", text], cwd=room, check=True, capture_output=True, timeout=SECONDS)
    for file, name in NAMES.items():
        if file != "desk":
            own = desk.replace(NAMES["desk"], name).replace("desk.", f"{file}.")
            subprocess.run(["sh", "-euc", own], cwd=room, check=True, capture_output=True, timeout=SECONDS)


def over_tls(room, port, who, method, fields, body, path="/people"):
    """The status that a client with a certificate gets."""
    context = ssl.create_default_context(cafile=room / "ca.pem")
    context.load_cert_chain(room / f"{who}.pem", room / f"{who}.key")
    fields = [*fields, "Connection: close", f"Content-Length: {len(body)}"]
    if not any(field.startswith("Host: ") for field in fields):
        fields.append("Host: kcr.example")
    head = "\r\n".join([f"{method} {path} HTTP/1.1", *fields, "", ""])
    with context.wrap_socket(kcr.connect(port), server_hostname="kcr.example") as peer:
        peer.sendall(head.encode() + body)
        return int(peer.recv(65_536).split(b" ")[1])


def logged(file, count):
    """The lines of one of the proxy's logs. It logs after it has answered."""
    for _ in range(100):
        lines = file.read_text(encoding="utf-8").splitlines()
        if len(lines) >= count:
            break
        time.sleep(0.1)
    return lines


def senders(file, count):
    """What the log of commands has: each sender, status and body."""
    return [(sorted(line["by"].split(",")), line["status"], line["body"])
            for line in map(json.loads, logged(file, count))]


@contextlib.contextmanager
def proxy(room, port, own):
    """The printed proxy on a port, before a register on another, while it runs."""
    text = printed("A proxy in front", "nginx")
    for there, here in (("listen 443", f"listen 127.0.0.1:{port}"), ("127.0.0.1:8053", f"127.0.0.1:{own}"),
                        ("/etc/nginx/kcr", str(room)), ("/var/log/nginx", str(room)), ("/var/log/kcr", str(room)),
                        ("/usr/share/kcr", str(TOP))):
        text = text.replace(there, here)
    (room / "kcr.conf").write_text(text)
    kinds = ("client_body", "proxy", "fastcgi", "uwsgi", "scgi")
    temporary = " ".join(f"{kind}_temp_path {room}/{kind};" for kind in kinds)
    (room / "nginx.conf").write_text(NGINX.format(room=room, temporary=temporary))
    words = [nginx(), "-c", room / "nginx.conf", "-e", room / "error.log"]
    with subprocess.Popen(words, stdin=subprocess.DEVNULL) as run:
        try:
            while not (room / "pid").exists() or not (room / "pid").read_text():
                expect("nginx", None, run.poll())
                time.sleep(0.1)
            yield
        finally:
            run.terminate()


def nginx():
    """The program nginx, or None."""
    return shutil.which("nginx", path=f"{os.environ['PATH']}:/usr/sbin")
