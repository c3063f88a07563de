#!/usr/bin/env python3
"""Draws who was in the room of a ceremony when, as a picture (SVG).

    kcr attendance --ceremony 61 --file register.db | tools/room.py [TITLE] > room.svg

Standard input is the attendance as comma separated values: the header `who,name,in,out`, then a row for each stay. Each
person has a line, in the order in which they first came, with a bar for each stay; below stand the hours (UTC). The bar
of somebody who is still in has no end: it reaches past the last moment that is told, and fades out. Pointing at a bar
shows its times. The same input gives the same bytes.

The status is 1 with a line on standard error where the input is no attendance.
"""
import csv
import datetime
import io
import sys
from xml.sax.saxutils import escape

WIDTH = 960
LEFT = 190  # where the bars begin
RIGHT = 30  # free behind them
LINE = 26
BAR = 14
TOP = 46
FOOT = 44
MOST_MARKS = 13  # on the scale
STEPS = [60 * minutes for minutes in (1, 2, 5, 10, 15, 30, 60, 120, 180, 360, 720, 1_440, 10_080, 43_200, 525_600)]
MOMENT = "%Y-%m-%dT%H:%M:%SZ"


class NoAttendance(Exception):
    """The input is not what `kcr attendance` writes."""


def seconds(text):
    """The seconds of a moment since 1970."""
    return int(datetime.datetime.strptime(text, MOMENT).replace(tzinfo=datetime.timezone.utc).timestamp())


def clock(moment, form):
    """A moment in this form."""
    return datetime.datetime.fromtimestamp(moment, datetime.timezone.utc).strftime(form)


def stays_of(text):
    """The stays by person, who came first first: initials and name, and each stay's beginning and end or None."""
    rows = list(csv.reader(io.StringIO(text, newline=""), strict=True))
    if not rows or rows[0] != ["who", "name", "in", "out"]:
        raise NoAttendance("the first row is not who,name,in,out")
    people = {}
    for number, row in enumerate(rows[1:], 2):
        try:
            who, name, begin, end = row
            stay = (seconds(begin), seconds(end) if end else None)
        except ValueError:
            raise NoAttendance(f"row {number} is no stay") from None
        people.setdefault((who, name), []).append(stay)
    return people


def scale(begin, end):
    """The moments at which the marks of the scale stand."""
    step = next((step for step in STEPS if (end - begin) / step < MOST_MARKS), STEPS[-1])
    first = -(-begin // step) * step
    return range(first, end + 1, step)


def picture(people, title):
    """The picture as text."""
    told = [moment for stays in people.values() for stay in stays for moment in stay if moment is not None]
    begin, end = (min(told), max(told)) if told else (0, 0)
    margin = max(60, (end - begin) // 40)
    begin, end = begin - margin, end + margin
    height = TOP + LINE * len(people) + FOOT
    foot = TOP + LINE * len(people)

    def place(moment):
        return LEFT + (WIDTH - LEFT - RIGHT) * (moment - begin) / (end - begin)

    lines = [
        f'<svg xmlns="http://www.w3.org/2000/svg" width="{WIDTH}" height="{height}" viewBox="0 0 {WIDTH} {height}" '
        'font-family="DejaVu Sans, Verdana, sans-serif" font-size="12">',
        f"<title>{escape(title)}</title>",
        '<defs><linearGradient id="open"><stop offset="0.7" stop-color="#2b6cb0"/>'
        '<stop offset="1" stop-color="#2b6cb0" stop-opacity="0.1"/></linearGradient></defs>',
        f'<rect width="{WIDTH}" height="{height}" fill="#ffffff"/>',
        f'<text x="16" y="28" font-size="15" fill="#1a202c">{escape(title)}</text>',
    ]
    if told:
        shown = None
        for moment in scale(begin, end):
            x, day = f"{place(moment):.1f}", clock(moment, "%Y-%m-%d")
            lines.append(f'<line x1="{x}" y1="{TOP}" x2="{x}" y2="{foot}" stroke="#d5dbe3"/>')
            texts = [clock(moment, "%H:%M"), day if day != shown else ""]
            lines += [f'<text x="{x}" y="{foot + 18 + 16 * row}" text-anchor="middle" fill="#4a5568">{text}</text>'
                      for row, text in enumerate(texts) if text]
            shown = day
        lines.append(f'<text x="16" y="{foot + 18}" fill="#4a5568">UTC</text>')
    else:
        lines.append('<text x="16" y="66" fill="#4a5568">Nobody was in the room.</text>')
    for number, ((who, name), stays) in enumerate(people.items()):
        middle = TOP + LINE * number + LINE / 2
        if number % 2 == 0:
            lines.append(f'<rect x="0" y="{TOP + LINE * number}" width="{WIDTH}" height="{LINE}" fill="#000000" '
                         'fill-opacity="0.03"/>')
        lines.append(f'<text x="16" y="{middle + 4:.1f}" fill="#1a202c">{escape(who)}</text>')
        shown = name if len(name) <= 18 else name[:17] + "\u2026"
        lines.append(f'<text x="62" y="{middle + 4:.1f}" fill="#1a202c">{escape(shown)}</text>')
        for since, until in stays:
            left, right = place(since), place(end if until is None else until)
            word = "still in" if until is None else f"to {clock(until, '%H:%M:%S')}"
            lines.append(f'<rect x="{left:.1f}" y="{middle - BAR / 2:.1f}" width="{max(right - left, 1):.1f}" '
                         f'height="{BAR}" rx="2" fill="{"url(#open)" if until is None else "#2b6cb0"}">'
                         f"<title>{escape(f'{who} {name}')}: {clock(since, '%H:%M:%S')} {word}</title></rect>")
    if told:
        lines.append(f'<line x1="{LEFT}" y1="{foot}" x2="{WIDTH - RIGHT}" y2="{foot}" stroke="#4a5568"/>')
    return "\n".join([*lines, "</svg>", ""])


def main():
    try:
        people = stays_of(sys.stdin.buffer.read().decode())
    except (NoAttendance, UnicodeDecodeError, csv.Error) as fault:
        sys.exit(f"room.py: no attendance: {fault}")
    sys.stdout.buffer.write(picture(people, " ".join(sys.argv[1:]) or "Who was in the room").encode())


if __name__ == "__main__":
    main()
