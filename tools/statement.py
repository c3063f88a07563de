#!/usr/bin/env python3
"""Writes docs/STATEMENT.md: all that one has to read to believe the theorem. It follows every name from the contracts
of the program's outermost functions to the definitions in `specs/` and the types in `src/`.

    python3 tools/statement.py              writes the page, and says how long it is
    python3 tools/statement.py --check      compares it with the page that is there: status 1 if they differ, or if
                                            a definition in `specs/` serves proofs alone
    python3 tools/statement.py --unreached  lists the definitions in `specs/` that the statement does not reach
    python3 tools/statement.py --long       lists the definitions with more than 12 lines, with the lines of the
                                            longest case, field or variant

A clause without a sentence, a name that is not found, and a name of the kit without a line end it with status 2 and a
line that names them. What the page is made of stands in `statement_list.py`, the lines of the kit's names in
`statement_kit.py`.
"""
import argparse
import re
import os
import sys

sys.dont_write_bytecode = True  # no files beside these

from statement_contracts import Contract
from statement_list import CONTRACTS, EXAMPLES
from statement_names import Library, Names, Reach, acts_named, cited, contract_names, in_laws, lemmas, used_by_tactics
from statement_read import Stop
from statement_write import missing, page, shown, unused

PAGE = "docs/STATEMENT.md"
HOMES = tuple("/".join(path.split("/")[:2]) + "/" for path in EXAMPLES)  # the crates with worked examples
LONG = 12  # lines


def main():
    wanted = arguments()
    os.chdir(os.path.dirname(os.path.dirname(os.path.abspath(__file__))))
    library = Library()
    contracts = [Contract(library.source(f"crates/{crate}/src/{file}.rt"), f"{crate}::{function}")
                 for crate, file, function in CONTRACTS]
    reach = Reach(library, [found for contract in contracts for found in contract_names(library, contract)])
    if wanted.unreached:
        return list_unreached(library, reach)
    if wanted.long:
        return list_long(library, reach)
    lacking = list(missing(contracts, reach))
    if lacking:
        raise Stop("\n".join(lacking))
    first = Reach(library, contract_names(library, contracts[0])).items.keys()
    left = len(unreached(library, reach))
    text = "\n".join(page(library, contracts, reach, first, left, examples_of(library))).rstrip() + "\n"
    if wanted.check:
        return check(text) or check_homes(library, reach)
    write(text, reach, left, unused(contracts, reach))
    return 0


def arguments():
    parser = argparse.ArgumentParser(description="Writes docs/STATEMENT.md, or compares it, or lists definitions.")
    one = parser.add_mutually_exclusive_group()
    one.add_argument("--check", action="store_true", help="compare the page with the one that is there")
    one.add_argument("--unreached", action="store_true", help="list the definitions that it does not reach")
    one.add_argument("--long", action="store_true", help=f"list the definitions with more than {LONG} lines")
    return parser.parse_args()


def examples_of(library):
    """For each item the example that leads to it by the fewest names, the first of several."""
    nearest = {}
    for path in EXAMPLES:
        for source, name, text in lemmas(library, path):
            acts = acts_named(library, source, text, HOMES)
            named = Names(library, source).of_piece(text)
            for key, distance in Reach(library, named, acts).distance.items():
                if key not in nearest or distance < nearest[key][0]:
                    nearest[key] = (distance, f"{path.split('/')[-1].removesuffix('.antt')}::{name}")
    return {key: name for key, (_, name) in nearest.items()}


def write(text, reach, left, not_needed):
    with open(PAGE, "w", encoding="utf-8") as file:
        file.write(text)
    print(f"{PAGE}: {len(reach.items)} definitions; the page has {text.count(chr(10)):,} lines")
    print(f"{left} definitions in specs/ are not in it: `--unreached` lists them")
    for entry in not_needed:
        print(f"not needed: {entry}")


def check(text):
    there = ""
    if os.path.exists(PAGE):
        with open(PAGE, encoding="utf-8") as file:
            there = file.read()
    if there == text:
        print(f"tools/statement.py writes the {PAGE} that stands in the repository")
        return 0
    old, new = there.split("\n"), text.split("\n")
    at = next((n for n, (a, b) in enumerate(zip(old, new)) if a != b), min(len(old), len(new)))
    print(f"{PAGE} is not what tools/statement.py writes: line {at + 1} is and should be")
    print("\n".join(old[at:at + 1] + new[at:at + 1]))
    return 1


def unreached(library, reach):
    return [item for path, source in library.sources.items() if "/specs/" in path for item in source.items.values()
            if item.key() not in reach.items]


def unreached_by_use(library, reach):
    """Those to which laws, examples and clauses of other functions lead, those of tactics, and those that serve proofs alone."""
    left, groups = unreached(library, reach), []
    for named in (cited(library) + in_laws(library, EXAMPLES), used_by_tactics(library)):
        there = Reach(library, named).items
        groups.append([item for item in left if item.key() in there])
        left = [item for item in left if item.key() not in there]
    return [*groups, left]


def list_unreached(library, reach):
    by_clauses, by_tactics, by_proofs = unreached_by_use(library, reach)
    list_items("definitions that laws, examples and clauses of other functions lead to", by_clauses)
    list_items("definitions that are laws for the tactics of functions, or named by these", by_tactics)
    list_items("definitions that only proofs name, or nothing", by_proofs)
    return 0


def check_homes(library, reach):
    """A definition that serves proofs alone stands in `proofs/`."""
    strays = unreached_by_use(library, reach)[-1]
    if strays:
        list_items("definitions in specs/ that only proofs name, or nothing", strays)
    return min(len(strays), 1)


def list_items(title, items):
    print(f"{len(items)} {title}:")
    for path in dict.fromkeys(item.path for item in items):
        print(f"  {path}: {', '.join(item.name for item in items if item.path == path)}")


def longest_part(lines):
    """How many lines the longest case, field or variant of a definition has: a reader takes these one by one."""
    lengths = [0]
    for line in lines:
        if re.match(r"  \S", line):
            lengths.append(0)
        lengths[-1] += 1
    return max(lengths)


def list_long(library, reach):
    texts = {item.key(): shown(library, item) for item in reach.items.values()}
    long = {key: lines for key, lines in texts.items() if len(lines) > LONG}
    for (path, name), lines in sorted(long.items(), key=lambda entry: (-len(entry[1]), entry[0])):
        print(f"{len(lines):4} {longest_part(lines):3} {path} {name}")
    print(f"{len(long)} of {len(texts)} definitions have more than {LONG} lines")
    return 0


if __name__ == "__main__":
    try:
        sys.exit(main())
    except Stop as stop:
        for line in str(stop).split("\n"):
            print(f"tools/statement.py: {line}", file=sys.stderr)
        sys.exit(2)
