"""A machine on which kcr is installed, for `operating.py`: a folder in which the files of the package stand, and in
which the commands of docs/OPERATING.md run as printed. Only folders and the port differ from the printed texts. In
place of apt, chown, journalctl, logger, runuser, scp and systemctl there are stand-ins.
"""
import contextlib
import os
import re
import shutil
import signal
import sqlite3
import subprocess
import sys
import time

import kcr
from kcr import HERE, SECONDS, expect

TOP = HERE.parent
sys.path.insert(0, str(TOP / "tools"))  # before tests/package.py
import package  # noqa: E402

PAGE = TOP / "docs" / "OPERATING.md"
REGISTER = "register.db"
FOLDERS = ("/run/systemd/system", "/etc/systemd", "/var/lib/kcr", "/var/backups/kcr", "/var/log/kcr",
           "/etc/default/kcr", "/etc/kcr", "/usr/share/doc/kcr", "/usr/share/kcr", "/usr/lib/systemd/system",
           "/usr/bin", "/mnt", "/tmp")
STAND_INS = {
    "apt": '#!/bin/sh\nset -e\ncase $1 in\n'
           'install) ln -s "$ROOT"/usr/bin/* "$ROOT/bin"; sh "$ROOT/postinst" configure "" ;;\n'
           'purge) sh "$ROOT/prerm" remove; sh "$ROOT/postrm" remove; sh "$ROOT/postrm" purge ;;\nesac\n',
    "deb-systemd-invoke": '#!/bin/sh\nexec systemctl "$@"\n',
    "runuser": '#!/bin/sh\nshift 3\nexec "$@"\n',
    "chown": "#!/bin/sh\n",
    "journalctl": '#!/bin/sh\ntest "$1 $3" = "-u -n" && exec tail -n "$4" "$KEPT/$2.service.journal"\n',
    "scp": '#!/bin/sh\nfor last; do :; done\nwhile test $# -gt 1; do\n'
           '    sed "s/:$FIRST_PORT/:$PORT/" "$FIRST${1#"first:$ROOT"}" > "$last/${1##*/}" && shift || exit 1\ndone\n',
    "systemd-sysusers": "#!/bin/sh\n",
}
LOGGER = '#!/bin/sh\necho "$*" >> "$ROOT/alarms"\n'


class Machine:
    """A machine in a folder; `install` is what `apt` does to it."""

    def __init__(self, program, root):
        self.root, self.port = root, kcr.free_port()
        self.file = root / "var/lib/kcr" / REGISTER
        for folder in ("bin", "tmp", "mnt", "kept", "var/backups", "usr/share/doc/kcr", "run/systemd/system"):
            (root / folder).mkdir(parents=True)
        self.lay_out()
        (root / "usr/bin/kcr").symlink_to(program)
        self.env = {**os.environ, "PATH": f"{root / 'bin'}:{os.environ['PATH']}", "ROOT": str(root),
                    "PORT": str(self.port), "KEPT": str(root / "kept"), "LINKS": str(root / "etc/systemd/system"),
                    "UNITS": str(root / "usr/lib/systemd/system")}
        self.env.pop("KCR", None)
        for name in ("systemctl", *STAND_INS):  # never those of the machine on which this is tested
            expect(f"where {name} is", str(root / "bin" / name), shutil.which(name, path=self.env["PATH"]))

    def lay_out(self):
        """Writes the files of the package, but for the program, and the stand-ins."""
        package.put_scripts(self.root)
        (self.root / "usr/share/doc/kcr/examples").symlink_to(TOP / "examples")
        for folder in ("usr/bin", "usr/lib/systemd/system", "etc/default"):
            for file in (self.root / folder).iterdir():
                file.write_text(self.here(file.read_text()))
        for name in ("postinst", "prerm", "postrm"):
            self.script(name, self.here((TOP / "packaging" / name).read_text()))
        self.script("usr/bin/logger", LOGGER)
        for name, text in STAND_INS.items():
            self.script(f"bin/{name}", text)
        (self.root / "bin/systemctl").symlink_to(HERE / "systemctl.py")

    def here(self, text):
        """A text with the folders and the port of this machine."""
        at = "|".join(map(re.escape, (*FOLDERS, "8053")))
        return re.sub(rf"(?<![\w.])(?:{at})\b", lambda found: str(self.port) if found[0] == "8053"
                      else str(self.root) + found[0], text)

    def script(self, name, text):
        """Writes a script."""
        file = self.root / name
        file.parent.mkdir(parents=True, exist_ok=True)
        file.write_text(text)
        file.chmod(0o755)

    def run(self, *words, stream=b"", cwd=None):
        """Runs a command: its status and what it wrote, both outputs in one."""
        with subprocess.Popen([str(word) for word in words], stdin=subprocess.PIPE, stdout=subprocess.PIPE,
                              stderr=subprocess.STDOUT, env=self.env, cwd=cwd or self.root,
                              start_new_session=True) as done:
            try:
                text, _ = done.communicate(stream, SECONDS)
            except subprocess.TimeoutExpired:
                os.killpg(done.pid, signal.SIGKILL)  # with what a script has started
                raise
        return done.returncode, text.decode(errors="replace")

    def well(self, *words, **others):
        """Runs a command that has to end with status 0: what it wrote."""
        status, text = self.run(*words, **others)
        expect(f"the status of {' '.join(map(str, words))} after {text!r}", 0, status)
        return text

    def badly(self, status, texts, *words):
        """Runs a command that has to end with this status and a text that has this one, or each of these."""
        got = self.run(*words)
        expect(f"the status of {' '.join(map(str, words))} after {got[1]!r}", status, got[0])
        for text in (texts,) if isinstance(texts, str) else texts:
            expect(f"whether {text!r} is in {got[1]!r}", True, text in got[1])

    def post(self, number):
        """Sends the command that enters a person with this number: its answer. It waits until the register listens."""
        for _ in range(SECONDS * 5):
            with contextlib.suppress(ConnectionRefusedError):
                return kcr.exchange(self.port, [enter(number)])
            time.sleep(0.2)
        raise kcr.Wrong("the register does not listen")

    def commands(self):
        """How many accepted commands the register has."""
        return kcr.commands_in(self.file)

    def files(self):
        """Each file of the register's folder with its bytes, but for its log and the index of its log."""
        return {path.relative_to(self.file.parent): path.read_bytes() for path in sorted(self.file.parent.rglob("*"))
                if path.is_file()}

    def wait(self, what, seconds=30):
        """Waits until something is so."""
        for _ in range(seconds * 10):
            if what():
                return
            time.sleep(0.1)
        raise kcr.Wrong("it is not so after a long while")


def enter(number):
    """The command that enters a person with this number, with a key of its own."""
    return kcr.person(b"k%d" % number, kcr.initials(number), b"Ann Abel %d" % number)


@contextlib.contextmanager
def installed(program, root, started=True):
    """A machine on which kcr is installed and started; it is stopped in the end."""
    machine = Machine(program, root)
    machine.well("apt", "install", "./kcr_1.0.0_amd64.deb")
    try:
        if started:
            machine.well("systemctl", "enable", "--now", "kcr")
        yield machine
    finally:
        machine.run("systemctl", "stop", "kcr")


def change_a_row(file):
    """Gives a person in a register's file another name, with sqlite3."""
    with contextlib.closing(sqlite3.connect(file)) as database:
        database.execute("UPDATE people SET name = 'Eve' WHERE name = 'Ann Abel 1'")
        database.commit()


@contextlib.contextmanager
def small_disk(room, megabytes):
    """A folder that is a disk of its own of `megabytes`, or None if none can be mounted."""
    room.mkdir(exist_ok=True)
    mounted = subprocess.run(["mount", "-t", "tmpfs", "-o", f"size={megabytes}m", "tmpfs", room], capture_output=True)
    try:
        yield room if mounted.returncode == 0 else None
    finally:
        if mounted.returncode == 0:
            subprocess.run(["umount", "-l", room], check=True)


def fill(folder, left):
    """Fills a disk except for `left` bytes."""
    free = shutil.disk_usage(folder).free
    (folder / "filler").write_bytes(bytes(max(0, free - left)))
