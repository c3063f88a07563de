#!/usr/bin/env python3
"""Writes the list of refusals in docs/kcr.1 from the tables of docs/REFUSALS.md.

    python3 tools/manual.py

The list is everything between the two comments `refusals` and `end of refusals` of the man page. `tests/documents.py`
fails if the man page and the tables differ.
"""
import pathlib
import re
import textwrap

DOCS = pathlib.Path(__file__).resolve().parent.parent / "docs"
WIDTH = 80
ROW = re.compile(r"(?m)^\| ([0-9]+) \| `(\w+)` \| ([0-9]+) \| ([^|]+) \| ([^|]*?) ?\| [^|]+ \| [^|]+ \|$")
VALUE = re.compile(r"(?m)^\| ([0-9]+) \| ([^|]+) \| ([^|]+) \|$")
LIST = re.compile(r'(?ms)(^\.\\" refusals.*?\n)(.*?)(^\.\\" end of refusals$)')


def rows(text):
    """The refusals of the table: number, word, status, sentence, and what the refusal carries."""
    return [(int(number), word, int(status), sentence, carried)
            for number, word, status, sentence, carried in ROW.findall(text)]


def values(text):
    """The values that refusals carry and that have a sentence of their own: number, value, sentence."""
    return [(int(number), value, sentence) for number, value, sentence in VALUE.findall(text)]


def lines(sentence):
    """A sentence as lines of mdoc: each text between backquotes is a literal."""
    found = []
    for place, part in enumerate(sentence.split("`")):
        if place % 2:
            found.append(f".Ql {part}")
            continue
        closing = re.match(r"([,.;:]?) ?", part)
        if closing[1] and found:
            found[-1] += f" {closing[1]}"
            part = part[closing.end():]
        found += textwrap.wrap(part.strip(), WIDTH)
    return found


def listed(text):
    """The list of refusals as mdoc."""
    own = values(text)
    found = [".Bl -tag -width Ds"]
    for number, word, status, sentence, _ in rows(text):
        found += [f".It {number} {word} Pq {status}", *lines(sentence)]
        for _, value, meaning in [row for row in own if row[0] == number]:
            head, *rest = lines(f"{value}: {meaning}")
            found += [".br", head, *rest]
    return "\n".join([*found, ".El"]) + "\n"


def page_of(text, page):
    """The man page with the list that the tables have."""
    return LIST.sub(lambda old: old[1] + listed(text) + old[3], page, count=1)


def main():
    page = (DOCS / "kcr.1").read_text(encoding="utf-8")
    text = (DOCS / "REFUSALS.md").read_text(encoding="utf-8")
    (DOCS / "kcr.1").write_text(page_of(text, page), encoding="utf-8")


if __name__ == "__main__":
    main()
