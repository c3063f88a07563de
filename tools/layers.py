#!/usr/bin/env python3
"""Draws the crates of crates.txt as boxes above each other: docs/layers.svg.

    tools/layers.py            writes the picture
    tools/layers.py --check    ends with status 1 if the picture is another one

A crate's box is one row above the highest crate that it uses. A line joins a crate with each crate that it uses, except
for those that another of these uses already. Crates of the kit are left out. The same file gives the same bytes.
"""
import functools
import pathlib
import sys

TOP = pathlib.Path(__file__).resolve().parent.parent
PICTURE = TOP / "docs" / "layers.svg"
WIDTH = 960
BOX_WIDTH, BOX_HEIGHT = 124, 26
ROW = 58  # from one row to the next
EDGE = 16  # free around all
SWEEPS = 8  # over all rows, to bring boxes near to those that they are joined with
STYLE = 'font-family="DejaVu Sans, Verdana, sans-serif" font-size="12"'


def crates(text):
    """Each crate with the crates of the repository that it uses."""
    lines = [line.partition("#")[0].strip() for line in text.splitlines()]
    used = {line.partition(":")[0].split()[0]: line.partition(":")[2].split() for line in lines if line}
    return {name: [other for other in others if other in used] for name, others in used.items()}


def rows_of(used):
    """The crates by row, the lowest first, and by name in each."""
    @functools.cache
    def row(name):
        return 1 + max(map(row, used[name])) if used[name] else 0

    found = [[] for _ in range(1 + max(map(row, used)))]
    for name in sorted(used):
        found[row(name)].append(name)
    return found


def joined(used):
    """Each crate with those that it uses, without those that another of them uses already."""
    @functools.cache
    def below(name):
        return frozenset(used[name]).union(*map(below, used[name]))

    return {name: [other for other in others if not any(other in below(more) for more in others)]
            for name, others in used.items()}


def places(rows, lines):
    """The middle of each box, from the left. Boxes are moved towards the middle of those that they are joined with."""
    near = {name: [*others, *(more for more in lines if name in lines[more])] for name, others in lines.items()}
    found = {}

    def spread(row):
        for number, name in enumerate(row):
            found[name] = WIDTH * (2 * number + 1) / (2 * len(row))

    for row in rows:
        spread(row)
    for _ in range(SWEEPS):
        for row in rows:
            middle = {name: sum(found[other] for other in near[name]) / max(1, len(near[name])) for name in row}
            row.sort(key=lambda name: (middle[name], name))
            spread(row)
    return found


def drawn(text):
    """The picture."""
    used = crates(text)
    rows, lines = rows_of(used), joined(used)
    left = places(rows, lines)
    height = 2 * EDGE + ROW * len(rows) - (ROW - BOX_HEIGHT)
    top = {name: height - EDGE - BOX_HEIGHT - ROW * number for number, row in enumerate(rows) for name in row}
    parts = [f'<svg xmlns="http://www.w3.org/2000/svg" width="{WIDTH}" height="{height}" '
             f'viewBox="0 0 {WIDTH} {height}" {STYLE}>',
             "<title>The crates: each stands above those that it uses</title>",
             f'<rect width="{WIDTH}" height="{height}" fill="#ffffff"/>']
    parts += [f'<line x1="{left[name]:.1f}" y1="{top[name] + BOX_HEIGHT}" x2="{left[other]:.1f}" y2="{top[other]}" '
              'stroke="#a0aec0"/>' for name in sorted(lines) for other in sorted(lines[name])]
    for name in sorted(used):
        parts.append(f'<rect x="{left[name] - BOX_WIDTH / 2:.1f}" y="{top[name]}" width="{BOX_WIDTH}" '
                     f'height="{BOX_HEIGHT}" rx="4" fill="#ebf4ff" stroke="#2b6cb0"/>')
        parts.append(f'<text x="{left[name]:.1f}" y="{top[name] + 17}" text-anchor="middle" fill="#1a202c">'
                     f'{name.removeprefix("kcr_")}</text>')
    return "\n".join([*parts, "</svg>"]) + "\n"


def main():
    if sys.argv[1:] not in ([], ["--check"]):
        sys.exit(__doc__)
    picture = drawn((TOP / "crates.txt").read_text(encoding="utf-8"))
    if not sys.argv[1:]:
        PICTURE.write_text(picture, encoding="utf-8")
    elif PICTURE.read_text(encoding="utf-8") != picture:
        sys.exit("docs/layers.svg is not what tools/layers.py draws of crates.txt")


if __name__ == "__main__":
    main()
