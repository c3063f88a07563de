#!/usr/bin/env python3
"""The Debian package: what it has, that the program runs from it, and that completion knows the program's words.

    tests/package.py PROGRAM [NAME ..]

PROGRAM is packed as `tools/package.py` does. Shown are: that two packages of one program have the same bytes; that the
package laid out in an empty folder has the program, the scripts, their man pages and the units, and the program answers
a first stream; that each path which a man page names is in the package, and the examples of kcr(1) run; that lintian
finds nothing; that systemd can read the units; that a purge leaves no link to a unit; and that bash, zsh and fish
complete each subcommand and its options. A test whose command is not installed is left out, and says so. With names
only these tests run.

The last line is `N passed, M failed`, and the status is 0 where none failed.
"""
import sys

sys.dont_write_bytecode = True  # no files beside these

import functools
import gzip
import os
import pathlib
import re
import subprocess
import tempfile

import kcr
from kcr import HERE, SECONDS, Wrong, call, expect

ROOT = HERE.parent
sys.path.insert(0, str(ROOT / "tools"))
import completion
import package

SUBCOMMANDS = "run serve print attendance custody export journal audit verify rebuild pack".split()
OPTIONS = {  # of each subcommand, in the order of its help
    "run": ["--file", "--existing", "--explain", "--help"],
    "serve": ["--file", "--existing", "--port", "--connections", "--idle", "--longest", "--explain", "--help"],
    "print": ["--file", "--ceremony", "--explain", "--help"],
    "attendance": ["--file", "--ceremony", "--explain", "--help"],
    "custody": ["--file", "--explain", "--help"],
    "export": ["--file", "--after", "--until", "--explain", "--help"],
    "journal": ["--file", "--ceremony", "--explain", "--help"],
    "audit": ["--file", "--explain", "--help"],
    "verify": ["--file", "--explain", "--help"],
    "rebuild": ["--file", "--into", "--explain", "--help"],
    "pack": ["--file", "--into", "--explain", "--help"],
}

MADE = tempfile.TemporaryDirectory(prefix="kcr-package-")  # goes when the test ends


@functools.lru_cache(maxsize=None)
def packed(program, turn):
    """A package of the program, made anew for each turn."""
    folder = pathlib.Path(MADE.name) / str(turn)
    folder.mkdir()
    return package.build(program, folder)


@functools.lru_cache(maxsize=None)
def laid_out(program):
    """The files of the package, in an empty folder."""
    folder = pathlib.Path(MADE.name) / "root"
    subprocess.run(["dpkg-deb", "-x", packed(program, 1), folder], check=True, timeout=SECONDS)
    return folder


def told(*words, **others):
    """What a command writes, both outputs in one, and its status."""
    run = subprocess.run([str(w) for w in words], stdout=subprocess.PIPE, stderr=subprocess.STDOUT, text=True,
                         timeout=SECONDS, **others)
    return run.stdout, run.returncode


def same_bytes(program, _room):
    """Two packages of one program have the same bytes."""
    expect("the second package", packed(program, 1).read_bytes(), packed(program, 2).read_bytes())


def runs(program, _room):
    """The program in the package is of the version that the package has, and answers a first stream."""
    root = laid_out(program)
    installed = root / "usr/bin/kcr"
    version = told("dpkg-deb", "-f", packed(program, 1), "Version")[0].strip()
    expect("what it tells of itself", ["kcr", version], told(installed, "--version")[0].split()[:2])
    stream = (ROOT / "examples/first.http").read_bytes()
    expect("the answers", call(program, "run", stream=stream), call(installed, "run", stream=stream))
    for name in ("usr/share/man/man1/kcr.1.gz", "usr/lib/systemd/system/kcr.service", "usr/lib/sysusers.d/kcr.conf",
                 "etc/default/kcr", "usr/share/kcr/room.py", "usr/share/doc/kcr/README.md",
                 "usr/share/doc/kcr/copyright", "usr/share/doc/kcr/examples/first.http",
                 "usr/share/kcr/page/index.html", "usr/share/kcr/page/main.js", "usr/share/kcr/page/serve.py"):
        if not (root / name).is_file():
            raise Wrong(f"the package has no {name}")


def scripts(program, _room):
    """Each script is in the package, runs and prints its help, has a man page, and what it calls is in Depends."""
    root = laid_out(program)
    for name in package.SCRIPTS:
        text, status = told(root / "usr/bin" / name, "--help")
        expect(f"{name} --help", (f"usage: {name} ", 0), (text[:len(f"usage: {name} ")], status))
        expect(f"the page of {name}", True, (root / f"usr/share/man/man8/{name}.8.gz").exists())
    expect("the files of settings", "/etc/default/kcr\n", told("dpkg-deb", "-I", packed(program, 1), "conffiles")[0])
    expect("whether curl is needed", True, "curl" in told("dpkg-deb", "-f", packed(program, 1), "Depends")[0])


def named(program, _room):
    """Each path that a man page names is in the package, but for the register's own."""
    root = laid_out(program)
    for page in ("man1/kcr.1", "man8/kcr-backup.8"):
        text = re.sub(r'(?m)^\.\\".*', "", gzip.decompress((root / f"usr/share/man/{page}.gz").read_bytes()).decode())
        for path in re.findall(r"/(?:usr|etc)/[\w./-]*\w", text):
            expect(f"whether {path} of {page} is in the package", True, (root / path[1:]).exists())
        for path in re.findall(r"(?<![\w/])(?:docs|examples|tools|page|packaging|tests)/\S+", text):
            raise Wrong(f"{page} names {path}, which is in no package")
        for name, section in re.findall(r"(?m)^\.Xr (kcr[\w-]*) (\d)", text):
            expect(f"whether {name}({section}) of {page} is in the package", True,
                   (root / f"usr/share/man/man{section}/{name}.{section}.gz").exists())


def shown(program, room):
    """The examples of the man page run as printed, with the packed program and files. Only folders and the port differ;
    the command after `serve` waits until the port answers."""
    root, port = laid_out(program), str(kcr.free_port())
    page = gzip.decompress((root / "usr/share/man/man1/kcr.1.gz").read_bytes()).decode()
    blocks = [text.replace(r"\e", "\\") for text in re.findall(r"(?ms)^\.Bd -literal.*?\n(.*?)^\.Ed$", page)]
    expect("how many blocks", 3, len(blocks))
    text = "".join(blocks).replace("/usr/share/", f"{root}/usr/share/").replace("8053", port)
    text = text.replace("curl ", "curl -s --retry 600 --retry-delay 1 --retry-connrefused ") + "kill $!\n"
    path = {**os.environ, "PATH": f"{root}/usr/bin:{os.environ['PATH']}"}
    output, status = told("bash", "-euc", text, cwd=room, env=path)
    expect(f"the status after {output[-300:]!r}", 0, status)
    reports = "".join((ROOT / f"examples/ceremony.{name}").read_text() for name in
                      ("script.txt", "attendance.csv", "custody.txt"))
    count = kcr.commands_in(room / "packed.db")
    wanted = f"{reports}audit: nothing found\nverified: {count} commands\nrebuilt: {count} commands\n"
    expect(f"whether {wanted!r:.80} is printed", True, wanted in output)
    expect("the last lines", f'listening 127.0.0.1:{port}\n{{"accepted":{count + 1}}}',
           output.rpartition(" commands\n")[2])
    expect("the picture", "<svg", (room / "room.svg").read_text()[:4])


def manual(_program, _room):
    """mandoc finds nothing in the man page of the scripts, and the page names each option that their help names."""
    page = package.PACKAGING / "kcr-backup.8"
    lines = told("mandoc", "-Tlint", "-Wwarning", page)[0].splitlines()
    expect("what mandoc says", [], [line for line in lines if "STYLE" not in line])
    for name in package.SCRIPTS:
        for option in re.findall(r"--([a-z]+)", told(package.PACKAGING / name, "--help")[0]):
            if option not in ("cacert", "cert", "key"):  # of curl
                expect(f"whether the page has --{option} of {name}", True, f"Fl -{option}" in page.read_text())


def purged(_program, room):
    """A purge removes each link that enables a unit of the package, and no other; a removal leaves them."""
    script = (package.PACKAGING / "postrm").read_text().replace("/etc/systemd", str(room))
    wants = room / "system/multi-user.target.wants", room / "system/timers.target.wants"
    units = [unit for unit in package.UNITS if "[Install]" in (package.PACKAGING / unit).read_text()]
    for folder in wants:
        folder.mkdir(parents=True)
        for unit in (*units, "other.service"):
            (folder / unit).symlink_to(f"/usr/lib/systemd/system/{unit}")
    for task, left in (("remove", len(units) + 1), ("upgrade", len(units) + 1), ("purge", 1), ("purge", 1)):
        expect(f"postrm {task}", ("", 0), told("sh", "-c", script, "postrm", task))
        expect(f"the links after {task}", [left, left], [len(list(folder.iterdir())) for folder in wants])


def clean(program, _room):
    """lintian has nothing to say of the package."""
    expect("what it says", ("", 0), told("lintian", "--allow-root", packed(program, 1)))


def unit(program, _room):
    """systemd reads the units, with the packed program and scripts at their places."""
    root = laid_out(program)
    for name in package.UNITS:
        text = (root / "usr/lib/systemd/system" / name).read_text()
        (root / name).write_text(text.replace("ExecStart=/usr/bin/kcr", f"ExecStart={root}/usr/bin/kcr"))
    told_lines, status = told("systemd-analyze", "verify", "--man=no", *(root / name for name in package.UNITS))
    about = [line for line in told_lines.splitlines() if "kcr" in line]
    expect("what it says", ([], 0), (about, status))


def in_bash(program, _room):
    """bash completes the subcommands, the options of each, and the names of files."""
    root = laid_out(program)
    script = root / "usr/share/bash-completion/completions/kcr"
    ask = 'source "$1"; shift; COMP_WORDS=("$@"); COMP_CWORD=$(($# - 1)); _kcr; printf "%s\\n" "${COMPREPLY[@]}"'

    def words(*given, **others):
        return told("bash", "-c", ask, "bash", script, "kcr", *given, **others)[0].split()

    expect("subcommands", SUBCOMMANDS + ["--help", "--version"], words(""))
    expect("subcommands with r", ["run", "rebuild"], words("r"))
    for name, given in OPTIONS.items():
        expect(f"the options of {name}", given, words(name, "--"))
    expect("files", ["README.md"], words("run", "--file", "README", cwd=ROOT))


def in_zsh(program, _room):
    """zsh reads its completion, and the file names each subcommand with its options."""
    script = laid_out(program) / "usr/share/zsh/vendor-completions/_kcr"
    expect("what zsh says", ("", 0), told("zsh", "-n", script))
    text = script.read_text()
    expect("subcommands", SUBCOMMANDS, re.findall(r"^        '([a-z]+):", text, re.M))
    for name, given in OPTIONS.items():
        line = re.search(rf"^        {name}\) _arguments (.*) ;;$", text, re.M)
        expect(f"the options of {name}", given, re.findall(r"'(--[a-z]+)\[", line[1]))


def in_fish(program, _room):
    """fish completes the subcommands and the options of each."""
    script = laid_out(program) / "usr/share/fish/vendor_completions.d/kcr.fish"

    def words(line):
        lines = told("fish", "--no-config", "-c", f"source {script}; complete -C '{line}'")[0].splitlines()
        return sorted(part.split("\t")[0] for part in lines)

    expect("subcommands", sorted(SUBCOMMANDS), words("kcr "))
    for name, given in OPTIONS.items():
        expect(f"the options of {name}", sorted(given), words(f"kcr {name} --"))


def listed(program, _room):
    """The words that are completed are those of the program's help."""
    expect("subcommands", SUBCOMMANDS, [name for name, _ in completion.subcommands(program)])
    for name, given in OPTIONS.items():
        found = ["--" + option for option, _, _ in completion.options(program, name)]
        expect(f"the options of {name}", given, found)


TESTS = [same_bytes, runs, scripts, named, shown, manual, purged, clean, unit, in_bash, in_zsh, in_fish, listed]
NEEDS = {same_bytes: "dpkg-deb", runs: "dpkg-deb", scripts: "dpkg-deb", named: "dpkg-deb",
         shown: "dpkg-deb bash curl python3", manual: "mandoc",
         clean: "dpkg-deb lintian", unit: "dpkg-deb systemd-analyze",
         in_bash: "dpkg-deb bash", in_zsh: "dpkg-deb zsh", in_fish: "dpkg-deb fish"}


if __name__ == "__main__":
    kcr.judge_installed(TESTS, NEEDS, __doc__)
