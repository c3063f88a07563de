#!/usr/bin/env python3
"""Makes the Debian package of kcr from the proved program.

    tools/package.py PROGRAM [FOLDER]

PROGRAM is the built program, such as crates/kcr_tool/out/kcr_tool. FOLDER (default: the current one) gets
`kcr_VERSION_amd64.deb`. The version is the one line `const VERSION` of crates/kcr_arguments/src/commands.rt, and the program
has to print it. All times in the package are that of the last commit (or SOURCE_DATE_EPOCH, if it is set), all owners
are root: the same commit and program give the same bytes. Beside python3 it takes dpkg-deb, git, and strip and objdump
of binutils.
"""

import gzip
import os
import pathlib
import re
import shutil
import subprocess
import sys
import tempfile

sys.path.insert(0, str(pathlib.Path(__file__).resolve().parent))
import completion  # noqa: E402

TOP = pathlib.Path(__file__).resolve().parent.parent
PACKAGING = TOP / "packaging"
SCRIPTS = ("kcr-backup", "kcr-save", "kcr-restore", "kcr-follow", "kcr-check", "kcr-new")
UNITS = ("kcr.service", "kcr-failed@.service", *(f"kcr-{name}.{kind}" for name in ("backup", "check", "follow")
                                                 for kind in ("service", "timer")))

DESCRIPTION = """register of the DNSSEC root zone key ceremonies
 kcr records who was in the room, who filled which seat of each step, who held
 which custodian's place, and where each tamper-evident bag is. Clients send
 HTTP requests; all data is in one SQLite file. Each function is proved to
 meet its contract."""


def ran(*words):
    """What a command prints; its failure ends the program."""
    return subprocess.run(words, check=True, capture_output=True, text=True, timeout=60).stdout


def version():
    """The version, from its one line in the sources."""
    text = (TOP / "crates/kcr_arguments/src/commands.rt").read_text()
    return re.search(r'const VERSION: &str = "([0-9.]+) ', text)[1]


def told_version(program):
    """The version that the program prints, on whichever of its two outputs."""
    told = subprocess.run([program, "--version"], capture_output=True, text=True, timeout=60)
    return (told.stdout + told.stderr).split()[1]


def moment():
    """The seconds that all files of the package have as their time."""
    return int(os.environ.get("SOURCE_DATE_EPOCH") or ran("git", "-C", str(TOP), "log", "-1", "--format=%ct"))


def libc_of(program):
    """The oldest C library that has all the symbols which the program takes."""
    found = re.findall(r"GLIBC_(\d+)\.(\d+)", ran("objdump", "-T", str(program)))
    return ".".join(map(str, max((int(major), int(minor)) for major, minor in found)))


def put(root, path, data, mode=0o644):
    """Writes a file of the package."""
    file = root / path
    file.parent.mkdir(parents=True, exist_ok=True)
    file.write_bytes(data)
    file.chmod(mode)


def packed(data):
    """Packed without a name or a time."""
    return gzip.compress(data, 9, mtime=0)


def changelog(number, seconds):
    """The package's change log: it sends the reader to the project's own."""
    stamp = ran("date", "--utc", "--date", f"@{seconds}", "--rfc-email").strip()
    return (
        f"kcr ({number}) stable; urgency=medium\n\n  * See /usr/share/doc/kcr/CHANGELOG.md.gz.\n\n"
        f" -- kcr maintainers <maintainers@users.noreply.pamtugya.example>  {stamp}\n"
    ).encode()


def put_program(root, program):
    """The program without its symbols, its man page, and the completions."""
    put(root, "usr/bin/kcr", pathlib.Path(program).read_bytes(), 0o755)
    ran("strip", "--strip-all", "--remove-section=.comment", str(root / "usr/bin/kcr"))
    put(root, "usr/share/man/man1/kcr.1.gz", packed((TOP / "docs/kcr.1").read_bytes()))
    with tempfile.TemporaryDirectory() as folder:
        completion.write_all(program, folder)
        for name, place in (
            ("kcr", "usr/share/bash-completion/completions/kcr"),
            ("_kcr", "usr/share/zsh/vendor-completions/_kcr"),
            ("kcr.fish", "usr/share/fish/vendor_completions.d/kcr.fish"),
        ):
            put(root, place, (pathlib.Path(folder) / name).read_bytes())


def put_scripts(root):
    """The scripts with their man page, and the units with their user and their settings."""
    for name in SCRIPTS:
        put(root, f"usr/bin/{name}", (PACKAGING / name).read_bytes(), 0o755)
    page, *others = SCRIPTS
    put(root, f"usr/share/man/man8/{page}.8.gz", packed((PACKAGING / f"{page}.8").read_bytes()))
    for name in others:
        (root / f"usr/share/man/man8/{name}.8.gz").symlink_to(f"{page}.8.gz")
    for name in UNITS:
        put(root, f"usr/lib/systemd/system/{name}", (PACKAGING / name).read_bytes())
    put(root, "usr/lib/sysusers.d/kcr.conf", (PACKAGING / "kcr.sysusers").read_bytes())
    put(root, "etc/default/kcr", (PACKAGING / "kcr.default").read_bytes())


def put_texts(root, number, seconds):
    """The documents and examples."""
    home = "usr/share/doc/kcr/"
    put(root, home + "copyright", (PACKAGING / "copyright").read_bytes())
    put(root, home + "changelog.gz", packed(changelog(number, seconds)))
    put(root, home + "CHANGELOG.md.gz", packed((TOP / "CHANGELOG.md").read_bytes()))
    for file in ran("git", "-C", str(TOP), "ls-files", "README.md", "docs", "examples").splitlines():
        if not file.endswith("kcr.1"):
            put(root, home + file, (TOP / file).read_bytes())
    put(root, "usr/share/kcr/room.py", (TOP / "tools/room.py").read_bytes(), 0o755)


def put_page(root):
    """The desk's page and its server."""
    for file in ran("git", "-C", str(TOP), "ls-files", "page").splitlines():
        put(root, f"usr/share/kcr/{file}", (TOP / file).read_bytes(), 0o755 if file.endswith(".py") else 0o644)


def control(root, number):
    """What the package says of itself."""
    size = sum(f.stat().st_size for f in root.rglob("*") if f.is_file() and "DEBIAN" not in f.parts) // 1024
    return (
        f"Package: kcr\nVersion: {number}\nArchitecture: amd64\n"
        "Maintainer: kcr maintainers <maintainers@users.noreply.pamtugya.example>\n"
        f"Installed-Size: {size}\n"
        f"Depends: libc6 (>= {libc_of(root / 'usr/bin/kcr')}), systemd | systemd-sysusers, curl\n"
        "Recommends: python3\n"
        f"Section: database\nPriority: optional\nDescription: {DESCRIPTION}\n"
    )


def sums(root):
    """The check sums of the package's files."""
    files = sorted(str(f.relative_to(root)) for f in root.rglob("*") if f.is_file() and not f.is_symlink())
    return ran("sh", "-c", 'cd "$0" && md5sum -- "$@"', str(root), *files)


def settle(root, seconds):
    """One time for all files and folders, and folders that everybody can read."""
    for path in [root, *root.rglob("*")]:
        if path.is_dir():
            path.chmod(0o755)
        os.utime(path, (seconds, seconds), follow_symlinks=False)


def build(program, folder):
    """Makes the package and returns its path."""
    number, seconds = version(), moment()
    if told_version(program) != number:
        sys.exit(f"{program} is of version {told_version(program)}, the sources are of {number}")
    with tempfile.TemporaryDirectory() as made:
        root = pathlib.Path(made) / "kcr"
        put_program(root, program)
        put_scripts(root)
        put_texts(root, number, seconds)
        put_page(root)
        checked = sums(root)
        put(root, "DEBIAN/control", control(root, number).encode())
        put(root, "DEBIAN/md5sums", checked.encode())
        put(root, "DEBIAN/conffiles", b"/etc/default/kcr\n")
        for script in ("postinst", "prerm", "postrm"):
            put(root, f"DEBIAN/{script}", (PACKAGING / script).read_bytes(), 0o755)
        settle(root, seconds)
        target = pathlib.Path(folder) / f"kcr_{number}_amd64.deb"
        environment = dict(os.environ, SOURCE_DATE_EPOCH=str(seconds), LC_ALL="C")
        words = ["dpkg-deb", "--root-owner-group", "-Zxz", "--build", str(root), str(target)]
        subprocess.run(words, check=True, env=environment, stdout=subprocess.DEVNULL)
        return target


if __name__ == "__main__":
    if not 2 <= len(sys.argv) <= 3 or not shutil.which("dpkg-deb"):
        sys.exit(__doc__.strip())
    print(build(sys.argv[1], sys.argv[2] if len(sys.argv) == 3 else "."))
