#!/usr/bin/env python3
"""Runs the gate and measures it: processor minutes by crate and by part. It runs a check on each processor, if there are
5 GiB of memory for each.

    tools/gate_minutes.py            runs `rt ci` and `tools/mutants.py`, passes on what they print and whether both ended
                                     well, and ends with the table
    tools/gate_minutes.py --alone    runs `rt ci` alone, which tries each mutant by itself and takes twice as long
    tools/gate_minutes.py LOG        prints the table again from a log of such a run

`rt ci` runs on a copy without the mutants, and the programs that it built are put where it would have built them here. The
parts are a crate's library, its tests, and its must-fail edits. What is measured is the processor time of the
prover's processes below this one, read from /proc a few times a second; so each process may lose the last fraction
of a second. The table is in the form that docs/GATE.md has. The lines `measured: CRATE PART SECONDS` of a log are
what the last form reads.
"""
import os
import pathlib
import re
import shutil
import subprocess
import sys
import tempfile
import threading
import time

SECONDS_BETWEEN_LOOKS = 0.25
BYTES_FOR_A_CHECK = 5 << 30  # few take as much
PARTS = ["library", "tests", "edits"]
BUILT = pathlib.Path("crates/kcr_tool/out")
PROGRAMS = ["kcr_tool", "kcr_tool.by-rattle"]
TICKS = os.sysconf("SC_CLK_TCK")


def processes():
    """Each process with its parent and the processor seconds that it has taken."""
    found = {}
    for folder in pathlib.Path("/proc").iterdir():
        if folder.name.isdigit():
            try:
                name, _, rest = (folder / "stat").read_text().rpartition(")")
                fields = rest.split()
                found[int(folder.name)] = (int(fields[1]), (int(fields[11]) + int(fields[12])) / TICKS)
            except OSError:
                pass
    return found


def below(found, top):
    """The processes that descend from this one."""
    family = {top}
    grew = True
    while grew:
        more = {process for process, (parent, _) in found.items() if parent in family} - family
        family |= more
        grew = bool(more)
    return family - {top}


def task_of(process):
    """The crate and the part that a process works on, or None where it has no crate."""
    try:
        words = pathlib.Path(f"/proc/{process}/cmdline").read_text().split("\0")
        folder = os.readlink(f"/proc/{process}/cwd")
    except OSError:
        return None
    if "--crate-name" not in words:
        return None
    crate = words[words.index("--crate-name") + 1]
    if "/rt-edit-" in folder:
        return crate, "edits"
    return crate, "tests" if "--test" in words else "library"


class Watch(threading.Thread):
    """Keeps the processor seconds of each process below this one, and what it works on."""

    def __init__(self):
        super().__init__(daemon=True)
        self.tasks = {}
        self.seconds = {}
        self.ended = threading.Event()

    def look(self):
        found = processes()
        for process in below(found, os.getpid()):
            if self.tasks.get(process) is None:
                self.tasks[process] = task_of(process)
            self.seconds[process] = max(found[process][1], self.seconds.get(process, 0))

    def run(self):
        while not self.ended.wait(SECONDS_BETWEEN_LOOKS):
            self.look()

    def sums(self):
        """Processor seconds by crate and part."""
        sums = {}
        for process, seconds in self.seconds.items():
            task = self.tasks.get(process) or ("all crates", "library")
            sums[task] = sums.get(task, 0) + seconds
        return sums


def crates_in_order():
    """The crates of the repository, each behind those that it stands on."""
    lines = [line.partition("#")[0] for line in pathlib.Path("crates.txt").read_text().splitlines()]
    names = {line.split(":")[0].split()[0]: line.split(":")[1].split() for line in lines if ":" in line}
    order = []
    while len(order) < len(names):
        ready = [name for name in sorted(names) if name not in order
                 and all(below not in names or below in order for below in names[name])]
        order += ready
    return order


def table(sums):
    """The table of docs/GATE.md."""
    lines = ["| Crate | Library | Tests | Edits | Together |", "|---|---|---|---|---|"]
    order = crates_in_order()
    others = sorted({crate for crate, _ in sums} - set(order))
    for crate in order + others:
        minutes = [sums.get((crate, part), 0) / 60 for part in PARTS]
        lines.append(f"| {crate} | " + " | ".join(f"{m:.1f}" if m else "" for m in minutes) + f" | {sum(minutes):.1f} |")
    totals = [sum(s for (_, of), s in sums.items() if of == part) / 60 for part in PARTS]
    lines.append("| together | " + " | ".join(f"{m:.1f}" for m in totals) + f" | {sum(totals):.1f} |")
    return "\n".join(lines)


def environment():
    """The environment of the gate, with the number of checks at once, unless the caller has set it. By its own estimate of
    memory `rt ci` leaves processors idle."""
    memory = os.sysconf("SC_PHYS_PAGES") * os.sysconf("SC_PAGE_SIZE")
    jobs = min(len(os.sched_getaffinity(0)), memory // BYTES_FOR_A_CHECK)
    return {"RT_JOBS": str(max(1, jobs)), **os.environ}


def gate(room):
    """Runs `rt ci` on a copy in this folder, and then the mutants over it: the status of what did not end well, or 0."""
    shutil.copytree("crates", f"{room}/crates", ignore=shutil.ignore_patterns("out", "must-fail"))
    for file in ("crates.txt", "HANDLES"):
        shutil.copy(file, room)
    status = subprocess.call(["rt", "ci"], cwd=room, env=environment())
    if status:
        return status
    BUILT.mkdir(exist_ok=True)
    for program in PROGRAMS:
        shutil.copy(room / BUILT / program, BUILT)
    return subprocess.call([sys.executable, "tools/mutants.py", room])


def measured(is_alone):
    """Runs the gate: its status, its sums and its minutes by the clock."""
    watch = Watch()
    watch.start()
    began = time.monotonic()
    with tempfile.TemporaryDirectory(prefix="kcr-gate-") as room:
        status = subprocess.call(["rt", "ci"], env=environment()) if is_alone else gate(pathlib.Path(room))
    watch.ended.set()
    watch.join()
    return status, watch.sums(), (time.monotonic() - began) / 60


def main():
    if len(sys.argv) > 2:
        sys.exit(__doc__)
    is_alone = sys.argv[1:] == ["--alone"]
    log = pathlib.Path(sys.argv[1]).read_text() if len(sys.argv) == 2 and not is_alone else None
    os.chdir(pathlib.Path(__file__).resolve().parent.parent)
    if log is not None:
        found = re.findall(r"(?m)^measured: (\S+) (\S+) ([0-9.]+)$", log)
        print(table({(crate.replace("-", " "), part): float(seconds) for crate, part, seconds in found}))
        return
    status, sums, minutes = measured(is_alone)
    for (crate, part), seconds in sorted(sums.items()):
        print(f"measured: {crate.replace(' ', '-')} {part} {seconds:.1f}")
    print(table(sums))
    print(f"{minutes:.0f} minutes by the clock on {os.cpu_count()} processors")
    sys.exit(status)


if __name__ == "__main__":
    main()
