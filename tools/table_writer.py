"""How a file is written, without the imports that nothing in it names."""
import os
import re

from imports import with_joined
from table_layout import DEFINITIONS, PROOFS, laid_out

TABLES_CRATE = "kcr_tables"
ROWS_CRATE = "kcr_rows"


def is_named(name, body):
    """Whether the text below the imports names this word; an operator is named by its sign."""
    sign = name.strip("◌")
    if "◌" in name:
        return all(part in body for part in sign.split("◌"))
    return re.search(rf"(?<![\w.'-]){re.escape(name)}(?![\w'-])", body) is not None


def without_unused(text):
    """The text without the imports that nothing below them names."""
    lines = text.split("\n")
    body = "\n".join(line for line in lines if not re.match(r"(ghost )?use ", line))
    kept = []
    for line in lines:
        group = re.match(r"((?:ghost )?use .*)\{(.*)\}(;?)$", line)
        single = re.match(r"(?:ghost )?use \S+ as (\w+);?$", line)
        if group:
            names = [name for name in group[2].split(", ") if is_named(name.split(" as ")[-1], body)]
            if not names:
                continue
            line = f"{group[1]}{{{', '.join(names)}}}{group[3]}"
        elif single and not is_named(single[1], body):
            continue
        kept.append(line)
    return "\n".join(kept)


def write(path, text, crate=TABLES_CRATE):
    """Writes a file that nobody edits, and says so in its first line."""
    path = os.path.join("crates", crate, path)
    sign = "//" if path.endswith(".rt") else "--"
    text = f"{sign} Written by tools/tables.py from tools/table_list.py: do not edit.\n" + without_unused(text)
    if path.endswith(".antt"):
        text = laid_out(text, DEFINITIONS if "/specs/" in path else PROOFS)
    text = with_joined(text)
    os.makedirs(os.path.dirname(path), exist_ok=True)
    with open(path, "w") as f:
        f.write(text if text.endswith("\n") else text + "\n")


def codes(text):
    return 'codes "' + text.replace('"', '\\"') + '"'


def listed(values):
    return " ∷ ".join([*map(str, values), "[]"])


def rust_text(text):
    return '"' + text.replace('"', '\\"') + '"'
