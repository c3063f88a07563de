#!/usr/bin/env python3
"""Writes page/refusals.js from the tables of docs/REFUSALS.md.

    python3 tools/page_refusals.py

The page shows a refusal by these sentences. `tests/page.py` fails if the file and the tables differ.
"""
import json
import pathlib
import re
import sys

sys.path.insert(0, str(pathlib.Path(__file__).resolve().parent))
import manual  # noqa: E402

TOP = pathlib.Path(__file__).resolve().parent.parent
ADVICE = re.compile(r"(?m)^\| ([0-9]+) \| `\w+` \| [0-9]+ \| [^|]+ \| [^|]*? ?\| ([^|]+) \| [^|]+ \|$")
HEAD = """// The 35 refusals in words, and what 30 and 31 carry.
//
// tools/page_refusals.py writes this file from docs/REFUSALS.md: number, word, status, sentence, and what to do.

"""


def module(text):
    """The module that the tables have: each refusal as number, word, status, sentence and what to do."""
    advice = {int(number): told for number, told in ADVICE.findall(text)}
    rows = [[number, word, status, sentence, advice[number]]
            for number, word, status, sentence, _ in manual.rows(text)]
    carried = {}
    for number, value, sentence in manual.values(text):
        carried.setdefault(str(number), {})[value.strip("`")] = sentence
    lines = ",\n".join("  " + json.dumps(row, ensure_ascii=False) for row in rows)
    return (f"{HEAD}export const REFUSALS = [\n{lines},\n];\n\n"
            f"export const CARRIED = {json.dumps(carried, ensure_ascii=False, indent=2)};\n")


def main():
    text = (TOP / "docs" / "REFUSALS.md").read_text(encoding="utf-8")
    (TOP / "page" / "refusals.js").write_text(module(text), encoding="utf-8")


if __name__ == "__main__":
    main()
