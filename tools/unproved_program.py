#!/usr/bin/env python3
"""Builds the program without proving it, for tests while proofs are made: some five to ten minutes, not an hour.

    tools/unproved_program.py TO

`rt try` compiles all crates from their source, with run-time checks that make the program ten times slower. This runs
it over a kit whose C compiler leaves those checks out, and links what it compiled as TO. What a test then shows, it
shows of the code alone: only the program that `rt run` or the gate builds is the proved one.
"""
import os
import pathlib
import shutil
import subprocess
import sys
import tempfile

TOP = pathlib.Path(__file__).resolve().parent.parent
COPIED = ("rt", "rtlib.py")  # these find the kit by their own place
TARGET = "x86_64-unknown-linux-gnu"
# called as the compiler: without checks, and with a copy of what was compiled
COMPILER = """\
#!/bin/bash
words=()
for word in "$@"; do
  case "$word" in
    -fsanitize=address) ;;
    -O0) words+=(-O1) ;;
    *) words+=("$word") ;;
  esac
  [ "${before-}" = -o ] && made="$word"
  before="$word"
done
KIT/toolchain/bin/clang "${words[@]}" && case "${made-}" in *.o) cp "$made" ROOM/module.o ;; esac
"""


def linked(folder, to, but):
    """Makes a folder that has what another has, by links, but for these names."""
    to.mkdir()
    for path in folder.iterdir():
        if path.name not in but:
            (to / path.name).symlink_to(path)


def kit_in(room, kit):
    """Makes a kit with another compiler, and returns its `rt`."""
    linked(kit, room / "kit", ("bin", "toolchain"))
    linked(kit / "bin", room / "kit" / "bin", COPIED)
    for name in COPIED:
        shutil.copy(kit / "bin" / name, room / "kit" / "bin")
    linked(kit / "toolchain", room / "kit" / "toolchain", ("bin",))
    linked(kit / "toolchain" / "bin", room / "kit" / "toolchain" / "bin", ("clang",))
    compiler = room / "kit" / "toolchain" / "bin" / "clang"
    compiler.write_text(COMPILER.replace("KIT", str(kit)).replace("ROOM", str(room)))
    compiler.chmod(0o755)
    return room / "kit" / "bin" / "rt"


def main():
    if len(sys.argv) != 2:
        sys.exit(__doc__)
    to = pathlib.Path(sys.argv[1]).resolve()
    kit = pathlib.Path(shutil.which("rt") or sys.exit("rt is not there")).resolve().parent.parent
    with tempfile.TemporaryDirectory(prefix="kcr-") as name:
        room = pathlib.Path(name)
        words = [sys.executable, kit_in(room, kit), "try", "--", "custody"]
        tried = subprocess.run(words, cwd=TOP / "crates" / "kcr_tool", stdin=subprocess.DEVNULL, capture_output=True)
        made = room / "module.o"
        if not made.is_file():
            sys.exit(f"nothing was compiled:\n{tried.stderr.decode(errors='replace')}")
        libraries = [kit / "c" / "libos_c.a", kit / "c" / "liblibc_c.a"]
        subprocess.run([kit / "bin" / "rattle-link", "--target", TARGET, "--toolchain", kit / "toolchain", "-o", to, made,
                        *libraries], check=True, stdout=subprocess.DEVNULL)


if __name__ == "__main__":
    main()
