"""Writes the page of the statement."""
import glob
import os
import re

from statement_kit import KIT, kit_lines
from statement_layout import comment, filled, laid_out
from statement_list import (ABOUT, CASES, CONTRACTS_ABOUT, CORE_ENDS, EXAMPLES_ABOUT, FIRST, KIT_ABOUT, NOT_IN_IT,
                            PARTS, SENTENCES)
from statement_names import clauses_of
from statement_read import Stop


class Part:
    """A part of the statement: a title, what it says, and its files with the items that are reached."""

    def __init__(self, title, about, files):
        self.title = title
        self.about = about
        self.wanted = files.split()
        self.files = []  # (path, items in their order)

    def items(self):
        return [item for _, items in self.files for item in items]


def short(path):
    """A file as the list of parts names it: `crate/File`, or `crate/src/file`."""
    return re.sub(r"^crates/|\.(antt|rt)$", "", path).replace("/specs/", "/")


def parts_of(library, reach):
    """The parts with what is reached, each file's items in the order of the file."""
    parts = [Part(*entry) for entry in PARTS]
    place = {name: (part, at) for part in parts for at, name in enumerate(part.wanted)}
    found = {}
    for path in {item.path for item in reach.items.values()}:
        items = [x for x in library.sources[path].items.values() if x.key() in reach.items]
        part, at = place.get(short(path)) or (home_of(path, parts), len(place))
        found.setdefault(id(part), []).append((at, path, items))
    for part in parts:
        part.files = [(path, items) for _, path, items in sorted(found.get(id(part), []), key=lambda x: x[:2])]
    return parts


def home_of(path, parts):
    """The part that has most files of the crate of a file that no part names."""
    crate = path.split("/")[1] + "/"
    counts = [sum(name.startswith(crate) for name in part.wanted) for part in parts]
    if not max(counts):
        raise Stop(f"no part of tools/statement_list.py has a file of the crate of {path}")
    return parts[counts.index(max(counts))]


def shown(library, item):
    """The lines of an item with its comment, as they are printed: of a type whose clauses see another value, that."""
    if item.path.endswith(".antt"):
        return laid_out(item, in_plain_names(library.sources[item.path].imports, item.lines))
    model = library.model_of(item)
    return laid_out(item, item.lines, model and value_of(item, " ".join(model.value.split())))


def in_plain_names(imports, lines):
    """The lines with plain texts, and with the name of its type before each variant: `Thing.Bag` for a `Bag` of the
    module `Things`."""
    named = {name: module.split(".")[-2] for name, (module, inner) in imports.items() if is_of_variants(module, inner)}
    lines = [quoted(line) for line in lines]
    if not named:
        return lines
    before_variant = re.compile(r"(?<![\w.])(" + "|".join(named) + r")\.(?=[A-Z])")
    return [before_variant.sub(lambda found: named[found[1]] + ".", line) for line in lines]


def quoted(line):
    """A line with texts as `"EAST"` in place of `codes "EAST"`."""
    text = r'("(?:[^"\\]|\\.)*")'
    return re.sub(r"\bcodes " + text, r"\1", re.sub(r"\(codes " + text + r"\)", r"\1", line))


def is_of_variants(module, inner):
    return inner is None and module.endswith(".TheVariants")


def value_of(item, value):
    """The value with the argument of an alias in place of the parameter."""
    given = re.search(r"= \w+<(\w+)>", item.text()) if item.kind == "alias" else None
    return re.sub(r"\bT\b", given[1], value) if given else value


def sentence_of(contract, clause):
    """The sentence of a clause: the comment over it, or else the one in the list, or None."""
    return " ".join(clause.comment) or SENTENCES.get(contract.root, {}).get(clause.name)


def missing(contracts, reach):
    """The clauses without a sentence, and the names of the kit without a line."""
    for contract in contracts:
        for clause in contract.clauses:
            if not sentence_of(contract, clause):
                yield (f"the clause `{clause.kind} {clause.name}` of {contract.root} has no sentence: write a comment "
                       f"over it in {contract.path}, or a sentence into SENTENCES of tools/statement_list.py")
    for crate, name in sorted(reach.kit.difference(kit_lines())):
        yield f"`{name}` of the kit's crate {crate} has no line: write one into tools/statement_kit.py"


def contract_text(contract, doubled):
    """A contract, with what the function does: its signature and its clauses, each below its sentence."""
    told = re.sub(r"  +", "\n\n", " ".join(contract.comment))
    lines = filled(re.sub(r"\( ", "(", re.sub(r",? \)", ")", " ".join(contract.signature.split()))))
    for clause in contract.clauses:
        lines += comment(sentence_of(contract, clause), "    ")
        lines += filled(" ".join(clause.text.split()), "    ")
    names = alias_lines({**contract.source.imports, **contract.imports}, lines, doubled)
    return [f"### `{contract.root}`", "", f"`{contract.path}`. {told}", "", "```text", *names, *lines, "```", ""]


def part_text(library, part, doubled):
    out = []
    for paths, items in headed_files(library, part):
        source = library.sources[paths[0]]
        out += [""] + comment(" ".join([f"[{heading(paths)}]", *source.about]))
        body = body_lines(library, items)
        out += alias_lines(source.imports, body, doubled - {item.name for item in items}) + body
    return [f"## {part.title}", "", part.about, "", "```text", *out[1:], "```", ""]


def headed_files(library, part):
    """The files below one heading, with their items: files of types that say nothing of themselves share it."""
    out = []
    for path, items in part.files:
        joins = path.endswith(".rt") and not library.sources[path].about
        if joins and out and out[-1][2] and out[-1][0][0].split("/")[1] == path.split("/")[1]:
            out[-1][0].append(path)
            out[-1][1].extend(items)
        else:
            out.append(([path], list(items), joins))
    return [(paths, items) for paths, items, _ in out]


def heading(paths):
    return ", ".join([short(paths[0]), *(short(path).split("/")[-1] for path in paths[1:])])


def body_lines(library, items):
    """The items, each section of their file below its comment."""
    out, section = [], []
    for item in items:
        if item.section != section:
            section = item.section
            out += comment(" ".join(line.lstrip("- ") for line in section))
        out += shown(library, item)
    return out


def alias_lines(imports, lines, doubled):
    """What the names are that lines have from elsewhere under another name, or that others have too."""
    text = re.sub(r'"[^"]*"|(--|//).*', "", "\n".join(lines))
    named, before_dots = set(re.findall(r"(?<![.\w])\w+", text)), set(re.findall(r"(?<![.\w])(\w+)\.\w", text))
    told = {}
    for name, (module, inner) in sorted(imports.items()):
        if is_of_variants(module, inner):
            continue
        if inner is None and name in before_dots:
            told.setdefault(module, []).append(f"`{name}.`")
        elif inner is not None and name in named and (inner != name or name in doubled):
            told.setdefault(module, []).append(f"`{name}`" + (f" as `{inner}`" if inner != name else ""))
    out = [f"{', '.join(names)} of {origin(module)}" for module, names in told.items()]
    return comment(f"here {'; '.join(out)}") if out else []


def origin(module):
    """A module of definitions, or the one with a type."""
    parts = [part.strip("«»") for part in module.split(".")[1:] if part not in ("specs", "TheVariants")]
    if "declared" in parts:
        parts.remove("declared")
    return "/".join(parts)


def kit_text(reach):
    """The kit's names, each with the line that says what it stands for."""
    out = ["## Names of the kit", "", KIT_ABOUT, "", "| Crate | Names | Stand for |", "|---|---|---|"]
    for crate, names, line in KIT:
        used = [plain(name) for name in names.split() if (crate, name) in reach.kit]
        if used:
            out.append(f"| {crate} | {', '.join(used)} | {line} |")
    return out + [""]


def plain(name):
    return "`" + name.replace("◌", " ").strip().replace("|", "\\|") + "`"


def front_text(library, contracts, parts, texts, first):
    """The tables at the front: how much there is to read, and what is left out."""
    rows = [("The contracts", f"{sum(len(c.clauses) for c in contracts)} clauses", "", sized(texts[0]))]
    for part, text in zip(parts, texts[1:]):
        items = part.items()
        rows.append((part.title, f"{len(items)} definitions", sum(item.key() in first for item in items), sized(text)))
    core = [part.title for part in parts].index(CORE_ENDS) + 2
    needed = [line for part in parts for item in part.items() if item.key() in first for line in shown(library, item)]
    rows += [("**All**", "", sum(row[2] or 0 for row in rows), sized(sum(texts, []))),
             (f"of that up to “{CORE_ENDS}”", "", sum(row[2] or 0 for row in rows[:core]),
              sized(sum(texts[:core], []))),
             (f"of that the definitions for `{FIRST}`", "", len(first), sized(needed))]
    out = [f"| Part | What is in it | Of these for `{FIRST}` | Lines | Words |", "|---|---|---|---|---|"]
    return out + [f"| {title} | {what} | {count} | {size} |" for title, what, count, size in rows] + [""]


def sized(lines):
    """How many lines and words there are, as two cells."""
    return f"{len(lines):,} | {len(' '.join(lines).split()):,}"


def left_out_text(unreached):
    """What the page leaves out, with the number of definitions that it does not reach."""
    out = ["| Not in it | Why it need not be |", "|---|---|"]
    return out + [f"| {left_out.format(unreached=unreached)} | {why} |" for left_out, why in NOT_IN_IT] + [""]


def examples_text(parts, examples):
    """The definitions with a value, each with the example that computes it, or with cases and tests that show it."""
    valued = [item for part in parts for item in part.items() if has_value(item)]
    count = sum(item.key() in examples for item in valued)
    out = ["## Definitions and examples", "", EXAMPLES_ABOUT.format(shown=count, none=len(valued) - count), "",
           "| File | Example: definitions | Case or test: definitions |", "|---|---|---|"]
    for path, items in (entry for part in parts for entry in part.files):
        by_example = {}
        for item in filter(has_value, items):
            by_example.setdefault(examples.get(item.key(), ""), []).append(f"`{item.name}`")
        none = ", ".join(by_example.pop("", []))
        if by_example or none:
            told = "; ".join(f"{example}: {', '.join(names)}" for example, names in sorted(by_example.items()))
            cases = ", ".join(map(case_text, CASES.get(short(path), "").split())) or "none"
            out.append(f"| `{short(path)}` | {told} | {none and f'{cases}: {none}'} |")
    return out + [""]


def case_text(name):
    """A case, or a test with its function, as the page names it."""
    test, _, function = name.partition(":")
    folder = "unproved/" if test.endswith(".txt") else "" if test.endswith(".py") or "/" in test else "cases/*/"
    found = glob.glob(f"tests/{folder}{test}")
    if not found or function and f" {function}(" not in read(found[0]):
        raise Stop(f"CASES of tools/statement_list.py names `{name}`, which is not in tests/{folder}")
    return f"{test} ({function})" if function else test


def read(path):
    with open(path, encoding="utf-8") as file:
        return file.read()


def has_value(item):
    """Whether a definition has a value: it is no type, and no fact."""
    if item.kind != "definition":
        return False
    signature, _ = clauses_of(item)
    return not re.search(r"Type \d+$", signature.strip())


def unused(contracts, reach):
    """What the lists have and the page does not need."""
    there = {short(item.path) for item in reach.items.values()}
    named = ((title, name) for title, _, files in PARTS for name in files.split())
    yield from (f"`{name}` in the part {title}" for title, name in named if name not in there)
    yield from (f"`{name}` in CASES" for name in CASES if name not in there)
    needed = {(c.root, clause.name) for c in contracts for clause in c.clauses if not clause.comment}
    yield from (f"the sentence of `{clause}` of {root}" for root in SENTENCES for clause in SENTENCES[root]
                if (root, clause) not in needed)


def page(library, contracts, reach, first, unreached, examples):
    """The lines of the page. `first` has the keys of what the first contract leads to, and `unreached` is the number of
    definitions to which no contract leads."""
    parts = parts_of(library, reach)
    names = [item.name for item in reach.items.values()] + [name for _, name in reach.kit]
    doubled = {name for name in names if names.count(name) > 1}
    texts = [["## The contracts", "", CONTRACTS_ABOUT, ""]]
    for contract in contracts:
        texts[0] += contract_text(contract, doubled)
    texts += [part_text(library, part, doubled) for part in parts]
    front = front_text(library, contracts, parts, texts, first) + left_out_text(unreached)
    return ABOUT + front + sum(texts, []) + kit_text(reach) + examples_text(parts, examples)
