#!/usr/bin/env python3
"""Tries the mutants, the edits crates/*/must-fail/*.edit, some at a time: the prover must refuse each.

    tools/mutants.py FOLDER [CRATE..]    all of them, or those of some crates, over the libraries that `rt ci` or `rt lib`
                                         built in FOLDER, a copy of the repository's crates

`rt must-fail` proves a crate and then reads it once more for each mutant. Here mutants of different functions go into one
check, as `rt plant` does it, and the prover proves only these functions and what they call. That shows as much: a mutant
keeps each contract, so what a function has to prove depends on no other function's body. A mutant is refused if the prover
says that a goal of the function that it changes does not hold. It does not count that another function fails, or that a
proof names what the mutant took away; and where a function fails that no mutant changes, the check counts for nothing.
What a check has not refused is in the next one, and in the end alone. A mutant of something other than a function, such as
a constant, is alone in a check of the whole crate, and any goal counts.
"""
import concurrent.futures
import dataclasses
import importlib.machinery
import os
import pathlib
import re
import shutil
import sys
import tempfile
import types

FUNCTION = re.compile(r"(?m)^ *(?:pub(?:\(\w+\))? )?fn (\w+)")
IMPL = re.compile(r"(?m)^impl(?:<.*?>)? (?:([\w:]+)(?:<.*?>)? for )?(\w+).*\{")
TAKEN_AWAY = re.compile(r"has no field|is not in scope|has no `|was not admitted|was rejected")
BYTES_FOR_A_CHECK = 5 << 30  # few take as much


def kit():
    """The kit's own program, whose functions read edits and check a crate with them."""
    file = os.path.realpath(shutil.which("rt"))
    module = types.ModuleType("rt")
    module.__file__ = file
    sys.modules["rt"], sys.dont_write_bytecode = module, True
    importlib.machinery.SourceFileLoader("rt", file).exec_module(module)
    return module


RT = kit()


def module_of(file):
    """The names of the module that stands in this file of `src`."""
    return [it for it in pathlib.PurePath(file).with_suffix("").parts[1:] if it not in ("lib", "main")]


def home_of(crate, type_name, file):
    """The file that declares a type of the crate: the prover names a type's functions by it. This one if none does."""
    declared = re.compile(rf"(?m)^(?:pub(?:\(\w+\))? )?(?:struct|enum) {type_name}\b")
    files = sorted(pathlib.Path(crate.folder, "src").rglob("*.rt"))
    homes = [it.relative_to(crate.folder) for it in files if declared.search(it.read_text(encoding="utf-8"))]
    return homes[0] if homes else file


def function_at(crate, file, text, end):
    """The function that stands in a text before this place, by the name that the prover prints, or None outside one."""
    closed = max((it.start() for it in re.finditer(r"(?m)^\}", text[:end])), default=-1)
    named = [it[1] for it in FUNCTION.finditer(text, 0, end) if it.start() > closed]
    block = next((it for it in IMPL.finditer(text, 0, end) if it.start() > closed), None)
    if not named:
        return None
    if not block:
        return "::".join([crate.name, *module_of(file), named[-1]])
    trait, owner = block[1], block[2]
    home = file if trait else home_of(crate, owner, file)
    return "::".join([crate.name, *module_of(home), owner + (trait or "").rpartition("::")[2], named[-1]])


@dataclasses.dataclass
class Mutant:
    """An edit: its name, its text, and the functions that it changes."""

    name: str
    text: str
    functions: set

    @classmethod
    def read(cls, crate, path):
        text, functions, file = pathlib.Path(path).read_text(encoding="utf-8"), set(), ""
        for line in text.splitlines():
            word, _, rest = line.partition(": ")
            if word == "file":
                file = rest.strip()
            elif word == "old":
                whole = pathlib.Path(crate.folder, file).read_text(encoding="utf-8")
                functions.add(function_at(crate, file, whole, whole.find(rest) + len(rest)))
        return cls(pathlib.Path(path).stem, text, functions)


def fitting(crate, mutants):
    """As many of these, from the first on, as one check can take, with the texts that they leave."""
    taken, texts = [], {}
    for mutant in mutants:
        apart = not any(mutant.functions & it.functions or None in mutant.functions | it.functions for it in taken)
        found = RT.edited("\n".join(it.text for it in [*taken, mutant]), crate.folder)[0] if apart else None
        if found:
            taken, texts = [*taken, mutant], found
    return taken, texts


def failing(said):
    """What failed by itself in what a check printed, each with the first goal that did: functions, and files of lemmas."""
    lines = re.sub(r"\n {2,}", " ", said).split("\n")
    in_files, goals, found = {}, [], {}
    for file, told in re.findall(r"(?m)^(?:\./)?(proofs/\S+)\.antt:\d+:\d+: error: (.*)", "\n".join(lines)):
        if not TAKEN_AWAY.search(told):
            in_files.setdefault(file, told)
    for line in lines:
        goals += re.findall(r"^note: src/\S+: (it is not proved that .*)", line)
        if function := re.match(r"fn (\S+): (no proof|not proved)?", line):
            folder = "/".join(["proofs", *function[1].split("::")[1:], ""])
            goals += re.findall(r"expected a measure", line)
            goals += [in_files.pop(file) for file in list(in_files) if file.startswith(folder)]
            if function[2] and goals:
                found[function[1]] = goals[0]
            goals = []
    return found | in_files


def check(crate, mutants, texts, kept):
    """What failed in a check with these texts, with a goal that did, and the last line. It is nothing if the check did not
    come to its end, or if a function failed that these mutants do not change. What it proves is kept in a folder."""
    changed = set().union(*[it.functions for it in mutants])
    only = [] if None in changed else [word for name in sorted(changed) for word in ("--only", name)]
    said = RT.checked(crate, texts, ["--jobs", "1", *only], kept).stdout
    if len(mutants) == 1 and "has no function" in said:
        said = RT.checked(crate, texts, ["--jobs", "1"], kept).stdout
    last = said.rstrip().split("\n")[-1]
    found = failing(said) if last.startswith(("only=", "logic=not-proved")) else {}
    others = set(found) - changed
    if others and None not in changed:
        return {}, f"a goal of {', '.join(sorted(others))} failed"
    return found, last


def try_all(crate, paths, kept):
    """For each mutant of a crate whether it is refused, and the goal that failed or why none did; over what is kept."""
    left, told, alone = [Mutant.read(crate, it) for it in paths], {}, False
    while left:
        taken, texts = fitting(crate, left[:1] if alone else left)
        if not taken:
            told[left[0].name] = False, f"it cannot be applied: {RT.edited(left[0].text, crate.folder)[1]}"
        else:
            found, last = check(crate, taken, texts, kept)
            for mutant in taken:
                goals = [goal for function, goal in found.items() if function in mutant.functions or None in mutant.functions]
                if goals or len(taken) == 1:
                    told[mutant.name] = bool(goals), goals[0] if goals else last
            alone = not any(it.name in told for it in taken)
        left = [it for it in left if it.name not in told]
    return told


def tell(crate, paths):
    """Says of each mutant of a crate what became of it, and returns how many were not refused."""
    with tempfile.TemporaryDirectory(prefix="kcr-mutants-") as kept:
        told = try_all(crate, paths, kept)
    for name, (is_refused, why) in sorted(told.items()):
        print(f"{crate.name}/{name}: {'refused' if is_refused else 'NOT REFUSED'}: {why[:160]}", flush=True)
    return sum(not is_refused for is_refused, _ in told.values())


def main():
    if len(sys.argv) < 2:
        sys.exit(__doc__)
    mutants = pathlib.Path(__file__).resolve().parent.parent / "crates"
    root = str(pathlib.Path(sys.argv[1]).resolve())
    os.chdir(root)
    RT.rtlib.guarded()
    RT.Crate.allowed = RT.handles_of(root)
    every = {crate.name: sorted((mutants / crate.name / "must-fail").glob("*.edit")) for crate in RT.crates_of(root)}
    memory = os.sysconf("SC_PHYS_PAGES") * os.sysconf("SC_PAGE_SIZE")
    lanes = max(1, min(len(os.sched_getaffinity(0)), memory // BYTES_FOR_A_CHECK))
    crates = [it for it in RT.crates_of(root) if every[it.name] and (it.name in sys.argv[2:] or not sys.argv[2:])]
    crates.sort(key=lambda it: -it.count(rb"\n"))
    with concurrent.futures.ThreadPoolExecutor(lanes) as pool:
        missed = sum(pool.map(lambda it: tell(it, every[it.name]), crates))
    tries = sum(len(every[it.name]) for it in crates)
    print(f"mutants: {tries - missed} of {tries} refused")
    sys.exit(1 if missed else 0)


if __name__ == "__main__":
    main()
