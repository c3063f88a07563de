"""Tests that each subcommand which prints all accepted commands of a file has to pass: `export` and `journal`."""
import kcr
from feed import filled, registers
from kcr import call, expect
from program import disk, noted


def printed(program, word, file, *words):
    """What a subcommand prints of a file that has a command."""
    output, faults, status = call(program, word, "--file", file, *words)
    expect(f"{word} {' '.join(map(str, words))}", (b"", 0), (faults, status))
    return output


def files(program, room):
    """Each register with a command: its file, and its commands with their answers."""
    for name, stream, commands in registers():
        if commands:
            file = room / f"{name}.db"
            filled(program, file, stream)
            yield name, file, commands


def tests_of(word):
    """The tests of a subcommand."""

    def without_commands(program, room):
        """A file that is not there is refused. Of a register without commands nothing is printed, and that is said."""
        gone, empty = room / "gone", room / "empty"
        expect("gone", disk("missing", gone), call(program, word, "--file", gone))
        expect("whether a file was made", False, gone.exists())
        filled(program, empty, b"")
        expect("empty", (b"", noted(empty, "has no command"), 0), call(program, word, "--file", empty))

    def no_registers(program, room):
        """What is no register is told as an opening tells it, and nothing is printed."""
        text, other = room / "text", room / "other"
        text.write_bytes(b"no database\n" * 100)
        kcr.change(other, "CREATE TABLE t (a)")
        for file, told in ((text, disk("reading", text)), (other, (b"", b"open: foreign\n", 1)),
                           (room, disk("opening", room))):
            expect(f"{word} of {file.name}", told, call(program, word, "--file", file))

    def output_is_full(program, room):
        """A write that fails is told with a line and status 1."""
        file = room / "register.db"
        filled(program, file, b"".join(kcr.short_ceremony()))
        with open("/dev/full", "wb") as full:
            run = kcr.subprocess.run([program, word, "--file", file], stdout=full, stderr=kcr.subprocess.PIPE,
                                     timeout=kcr.SECONDS)
        expect("the end", (b"fault: write\n", 1), (run.stderr, run.returncode))

    return [without_commands, no_registers, output_is_full]
