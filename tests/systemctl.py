#!/usr/bin/env python3
"""A stand-in for systemctl, for `operating.py`: it runs the words of the units of a folder as systemd would.

The environment names the folder of the units (UNITS), that of the links which enable them (LINKS), and one for what it
keeps (KEPT). It knows start, stop, try-restart, enable, disable, mask, unmask, is-active, is-failed, reset-failed and
daemon-reload; of a service ExecStart, EnvironmentFile, Type,
Restart, RestartSec and OnFailure, and the limit of starts. A started timer starts nothing. What a unit writes goes to
the file KEPT/UNIT.journal. A start of `kcr` takes until the program listens, since the tested one may be slow.
"""
import contextlib
import os
import pathlib
import re
import shlex
import signal
import subprocess
import sys
import time

UNITS, LINKS, KEPT = (pathlib.Path(os.environ[name]) for name in ("UNITS", "LINKS", "KEPT"))
SECONDS = 100  # at most, for a start or a stop


def named(unit):
    """The whole name of a unit."""
    return unit if re.search(r"\.(service|timer)$", unit) else f"{unit}.service"


def settings(unit):
    """The settings of a unit; a template's file is that of its name up to the `@`."""
    instance = re.search(r"@(.*)\.service$", unit)
    file = UNITS / (re.sub(r"@.*\.", "@.", unit) if instance else unit)
    if not file.exists():
        sys.exit(f"Unit {unit} not found.")
    text = file.read_text().replace("%n", unit).replace("%i", instance[1] if instance else "")
    return dict(line.split("=", 1) for line in text.splitlines() if "=" in line)


def words(found):
    """The command line of a service, with the values of its file of settings."""
    values = {}
    if file := found.get("EnvironmentFile"):
        for line in pathlib.Path(file).read_text().splitlines():
            name, equals, value = line.partition("=")
            if equals and not line.startswith("#"):
                values[name] = value.strip('"')
    given = []
    for word in shlex.split(found["ExecStart"]):
        if whole := re.fullmatch(r"\$([A-Z]+)", word):
            given += values.get(whole[1], "").split()
        else:
            given.append(re.sub(r"\$\{([A-Z]+)\}", lambda name: values.get(name[1], ""), word))
    return given


def kept(unit, kind):
    """A file that is kept for a unit."""
    return KEPT / f"{unit}.{kind}"


def state(unit):
    """active, inactive or failed."""
    file = kept(unit, "state")
    return file.read_text() if file.exists() else "inactive"


def run(unit, found):
    """Starts the command line of a service, without a terminal and without the descriptors of the caller."""
    with kept(unit, "journal").open("ab") as journal:
        return subprocess.Popen(words(found), stdin=subprocess.DEVNULL, stdout=journal, stderr=subprocess.STDOUT)


def fail(unit, found):
    """Notes that a unit failed, and starts its alarm."""
    kept(unit, "state").write_text("failed")
    if alarm := found.get("OnFailure"):
        start(alarm)


def once(unit, found):
    """Runs a service that ends by itself: whether it ended well."""
    if run(unit, found).wait() == 0:
        kept(unit, "state").write_text("inactive")
        return True
    fail(unit, found)
    return False


def keep_up(unit, found):
    """Runs a service again and again until it is stopped, or was started too often."""
    begun, seconds, running = [], int(found.get("StartLimitIntervalSec", 10)), []

    def end(*_):
        for service in running:
            with contextlib.suppress(ProcessLookupError, ChildProcessError):  # it may have ended by itself
                os.kill(service.pid, signal.SIGTERM)
                os.waitpid(service.pid, 0)
        kept(unit, "state").write_text("inactive")
        os._exit(0)

    signal.signal(signal.SIGTERM, end)
    signal.pthread_sigmask(signal.SIG_UNBLOCK, {signal.SIGTERM})
    while True:
        begun = [moment for moment in begun if moment > time.monotonic() - seconds]
        if len(begun) >= int(found.get("StartLimitBurst", 5)):
            return fail(unit, found)
        begun.append(time.monotonic())
        service = run(unit, found)
        running[:] = [service]
        kept(unit, "state").write_text("active")
        service.wait()
        kept(unit, "state").write_text("activating")
        time.sleep(float(found.get("RestartSec", 0.1)))


def start(unit):
    """Starts a unit: whether that went well."""
    if (LINKS / unit).is_symlink():
        print(f"Failed to start {unit}: Unit {unit} is masked.", file=sys.stderr)
        return False
    found = settings(unit)
    if unit.endswith(".timer"):
        kept(unit, "state").write_text("active")
        return True
    if found.get("Type") == "oneshot":
        return once(unit, found)
    if state(unit) != "active":
        kept(unit, "state").write_text("active")
        journal = kept(unit, "journal")
        before = journal.stat().st_size if journal.exists() else 0
        signal.pthread_sigmask(signal.SIG_BLOCK, {signal.SIGTERM})  # until the keeper can take it
        keeper = subprocess.Popen([sys.executable, __file__, "keep-up", unit], start_new_session=True,
                                  stdin=subprocess.DEVNULL, stdout=subprocess.DEVNULL, stderr=subprocess.DEVNULL)
        kept(unit, "pid").write_text(str(keeper.pid))
        until(lambda: journal.exists() and b"listening" in journal.read_bytes()[before:] or state(unit) != "active")
    return True


def until(so):
    """Waits until something is so, or for a long while."""
    for _ in range(SECONDS * 20):
        if so():
            return
        time.sleep(0.05)


def stop(unit):
    """Stops a unit and waits for its end."""
    settings(unit)  # ends where there is no such unit
    file = kept(unit, "pid")
    if file.exists():
        try:
            os.kill(int(file.read_text()), signal.SIGTERM)
            until(lambda: state(unit) in ("inactive", "failed"))
        except ProcessLookupError:
            pass
        file.unlink()
    if state(unit) != "failed":
        kept(unit, "state").write_text("inactive")
    return True


def enable(unit):
    """Makes the links that a unit's section Install says."""
    wants = LINKS / f"{settings(unit)['WantedBy']}.wants"
    wants.mkdir(parents=True, exist_ok=True)
    if not (wants / unit).is_symlink():
        (wants / unit).symlink_to(UNITS / unit)
    return True


def disable(unit):
    """Removes these links."""
    for link in LINKS.glob(f"*.wants/{unit}"):
        link.unlink()
    return True


def mask(unit):
    """Has each start of a unit refused."""
    (LINKS / unit).symlink_to("/dev/null")
    return True


def unmask(unit):
    """Has them done again."""
    (LINKS / unit).unlink(missing_ok=True)
    return True


def again(unit):
    """Stops and starts a unit that is active."""
    return state(unit) != "active" or stop(unit) and start(unit)


def reset(unit):
    """Forgets that a unit failed."""
    if state(unit) == "failed":
        kept(unit, "state").write_text("inactive")
    return True


def main():
    given = [word for word in sys.argv[1:] if not word.startswith("--")]
    task, units = given[0], [named(unit) for unit in given[1:]]
    if task == "keep-up":
        return keep_up(units[0], settings(units[0]))
    if task in ("is-active", "is-failed"):
        sys.exit(0 if state(units[0]) == task[3:] else 3)
    tasks = {"start": [start], "stop": [stop], "enable": [enable], "disable": [disable], "mask": [mask],
             "unmask": [unmask], "try-restart": [again], "reset-failed": [reset], "daemon-reload": []}[task]
    if "--now" in sys.argv:
        tasks = tasks + [start if task == "enable" else stop]
    # not by a generator: each unit gets its turn, also after one that failed
    done = [each(unit) for unit in units for each in tasks]
    sys.exit(0 if all(done) else 1)


if __name__ == "__main__":
    main()
