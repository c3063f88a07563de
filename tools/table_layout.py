"""How long lines of a definition file, and of a file of proofs, are broken."""
import re

DEFINITIONS, PROOFS = 120, 160
OPENS, CLOSES = "({[", ")}]"
# before these a line may be broken, as far outside of brackets as can be
SIGNS = [" → ", " × ", " ∷ ", " ∙ "]


def places(line):
    """Where a line may be broken: how deep in brackets, and the position that the next line begins with."""
    found, depth, inside = [], 0, False
    for at, sign in enumerate(line):
        if sign == '"':
            inside = not inside
        elif not inside:
            depth += (sign in OPENS) - (sign in CLOSES)
            if any(line.startswith(mark, at) for mark in SIGNS):
                found.append((depth, at + 1))
            if line.startswith("; ", at):
                found.append((depth + 0.4, at + 2))
            if line.startswith(" (", at):
                found.append((depth + 0.5, at + 1))
    return found


def places_in_proofs(line):
    """The same in a proof, where a line may also be broken behind an equals sign and before an argument; what stands
    before the sign stays together, and so do a field and its value."""
    found, depth, inside, sides = places(line), 0, False, 0
    for at, sign in enumerate(line):
        if sign == '"':
            inside = not inside
        elif not inside:
            depth += (sign in OPENS) - (sign in CLOSES)
            if depth == 0 and line.startswith(" = ", at) and not sides:
                sides = at
                if at > 70:
                    found.append((-0.2, at + 3))
            if line.startswith(", ", at):
                found.append((depth + 0.4, at + 2))
            if line.startswith(" ⊎ ", at):
                found.append((depth, at + 1))
            if line.startswith(" ≡ ", at):
                found.append((depth + 0.7, at + 1))
            if re.match(r" (?!in |let |with )[a-z_]", line[at:]) and re.search(r"[\w)]$", line[:at]) and not re.search(r"\b(let|λ|rw|ap|sym|record)$", line[:at]):
                found.append((depth + 0.8, at + 1))
    is_told = " : " in line[:sides]
    return [(depth, at) for depth, at in found if at > sides or is_told]


def broken(line, rest, width):
    """The line in pieces of at most this width, where that can be, each but the first with `rest` before it."""
    pieces = []
    find = places if width == DEFINITIONS else places_in_proofs
    while len(line) > width:
        fitting = [(depth, at) for depth, at in find(line) if len(rest) + 8 < at <= width]
        if not fitting:
            break
        least = min(depth for depth, _ in fitting)
        at = max(at for depth, at in fitting if depth == least)
        pieces.append(line[:at].rstrip())
        line = rest + line[at:]
    return pieces + [line]


def imports(line, width):
    """An import of many names as several of the same module."""
    head, names, tail = re.match(r"(.*\{)(.*)(\};?)$", line).groups()
    pieces, now = [], []
    for name in names.split(", "):
        if now and len(head + ", ".join(now + [name]) + tail) > width:
            pieces.append(head + ", ".join(now) + tail)
            now = []
        now.append(name)
    return pieces + [head + ", ".join(now) + tail]


def laid_out(text, width):
    """The text with its long lines broken. A text of SQL stays in one line, and so does a record that was written in one:
    `rt fmt` gives each part of a broken one a line of its own, ten for what a text of SQL comes to."""
    out = []
    for line in text.split("\n"):
        bare = line.lstrip(" ")
        indent = line[: len(line) - len(bare)]
        if len(line) <= width or bare.startswith("--") or " record {" in line:
            out.append(line)
        elif bare.startswith("use "):
            out += imports(line, width)
        else:
            out += broken(line, indent if bare.startswith("→") else indent + "    ", width)
    return "\n".join(out)
