#!/usr/bin/env python3
"""Joins the imports of definitions, of proofs and of contracts that share a path, as Rust's `use a::{b::C, d::E}`.

    tools/imports.py            joins those of all files of the crates
    tools/imports.py --check    names the files that have imports to join, and ends with status 1 if there are any

Lines that follow each other are joined, the longest shared path first, while a joined line has no more than 150
characters and the path leads into one part of one crate. A module of which a line names more than three items, or
operators, keeps a line of its own.
"""
import itertools
import pathlib
import re
import sys

CRATES = pathlib.Path(__file__).resolve().parent.parent / "crates"
LONGEST_LINE = 150
SHORTEST_PATH = 3  # Rattle, the crate and its part
MOST_ITEMS = 3
IMPORT = re.compile(r"( *(?:ghost |unfoldable )?(?:pub )?use )([^{\s]+)\.\{(.*)\}(;?)")


def read(line):
    """An import by what stands before its path, the path, its items and what ends it, or None."""
    found = IMPORT.fullmatch(line)
    return found and (found[1], found[2].split("."), found[3].split(", "), found[4])


def written(one):
    """The line of an import."""
    head, path, items, end = one
    return f"{head}{'.'.join(path)}.{{{', '.join(items)}}}{end}"


def joined(one, other):
    """Both imports as one, or None if they are to stand apart."""
    shared = []
    for part, like in zip(one[1], other[1]):
        if part != like:
            break
        shared.append(part)
    if (one[0], one[3]) != (other[0], other[3]) or len(shared) < SHORTEST_PATH:
        return None
    items = []
    for _, path, named, _ in (one, other):
        rest = path[len(shared):]
        if rest and (len(named) > MOST_ITEMS or any(re.search(r"[^\w.' -]", name) for name in named)):
            return None
        items += [".".join([*rest, name]) for name in named]
    both = (one[0], shared, items, one[3])
    return both if len(written(both)) <= LONGEST_LINE else None


def joined_run(lines):
    """Imports that follow each other, with as many of them joined as can be."""
    imports = [read(line) or line for line in lines]
    while True:
        at_all = [at for at, one in enumerate(imports) if not isinstance(one, str)]
        pairs = [
            (-len(both[1]), len(written(both)), at, other, both)
            for at, other in itertools.combinations(at_all, 2)
            if (both := joined(imports[at], imports[other]))
        ]
        if not pairs:
            return [one if isinstance(one, str) else written(one) for one in imports]
        _, _, at, other, imports[at] = min(pairs)
        del imports[other]


def with_joined(text):
    """The text with its imports joined."""
    out, run = [], []
    for line in [*text.split("\n"), None]:
        if line is not None and re.match(r" *((ghost|unfoldable) )?(pub )?use ", line):
            run.append(line)
            continue
        out += joined_run(run)
        run = []
        if line is not None:
            out.append(line)
    return "\n".join(out)


def main():
    if sys.argv[1:] not in ([], ["--check"]):
        sys.exit("usage: tools/imports.py [--check]")
    found = []
    for part in ("src", "specs", "proofs"):
        for path in sorted(it for it in CRATES.glob(f"*/{part}/**/*") if it.suffix in (".antt", ".rt")):
            text = path.read_text(encoding="utf-8")
            joined_text = with_joined(text)
            if text != joined_text:
                found.append(path.relative_to(CRATES.parent))
                if not sys.argv[1:]:
                    path.write_text(joined_text, encoding="utf-8")
    if sys.argv[1:] and found:
        sys.exit("\n".join(f"{path}: tools/imports.py joins its imports" for path in found))


if __name__ == "__main__":
    main()
