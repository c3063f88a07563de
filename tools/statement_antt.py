"""The parts of a definition of antt, and of a type of Rust, from which the statement lays them out."""
import re

PIECE = re.compile(r'"(?:[^"\\]|\\.)*"|.', re.S)
STRING = r'("(?:[^"\\]|\\.)*")|'
VARIABLE = re.compile(r"[\w']+$")


def pieces(text, separator):
    """The parts of a text between separators outside of strings, each with the number of brackets that are open before
    it and behind it."""
    parts, begun, depth, before = [], "", 0, 0
    for piece in PIECE.findall(text):
        depth -= piece in ")]}"
        if piece == separator:
            parts.append((begun, before, depth))
            begun, before = "", depth
        else:
            begun += piece
        depth += piece in "([{"
    return [part for part in parts + [(begun, before, depth)] if part[0]]


def top_level(text, separator):
    """The parts of a text between separators outside of brackets and strings."""
    parts, open_part = [], None
    for part, before, behind in pieces(text, separator):
        if open_part is None and before == 0:
            open_part = part
        else:
            open_part += separator + part
        if behind == 0:
            parts.append(open_part)
            open_part = None
    return parts


def flat(text):
    """A text on one line: outside of strings one space in place of each run of blanks, none within round brackets, and
    nothing behind the last of what braces hold."""
    text = re.sub(STRING + r"\s+", lambda found: found[1] or " ", text).strip()
    return re.sub(STRING + r"(?<=[(\[]) |,? (?=[)\]])|[,;](?= })", lambda found: found[1] or "", text)


def groups(lines):
    """The lines of a definition by its signature and cases: each begins at the left."""
    parts = []
    for line in lines:
        if not parts or not (line[0].isspace() or line[0] in "})"):
            parts.append([])
        parts[-1].append(line)
    return parts


class Case:
    """A case of a definition: its patterns, its value, and the functions that it defines for itself."""

    def __init__(self, lines):
        at = next((n for n, line in enumerate(lines) if line.strip() == "where"), len(lines))
        left, value = re.split(r"\s=(?=\s)", "\n".join(lines[:at]), maxsplit=1)
        self.patterns = top_level(flat(left), " ")[1:]
        self.value = flat(value)
        self.locals = list(locals_of(lines[at + 1:]))


def locals_of(lines):
    """The functions below a `where`."""
    indent = len(lines[0]) - len(lines[0].lstrip()) if lines else 0
    found = {}
    for part in groups([line[indent:] for line in lines]):
        found.setdefault(part[0].split()[0], []).extend(part)
    return map(Definition, found.values())


class Definition:
    """A definition: its name, its signature and its cases."""

    def __init__(self, lines):
        signature, *cases = groups(lines)
        head, _, self.signature = flat("\n".join(signature)).partition(" : ")
        self.name = head.split()[-1]
        self.cases = [Case(case) for case in cases]

    def function_head(self):
        """The head with the arguments before the colon; None if there are several cases or other patterns."""
        if len(self.cases) != 1 or not all(VARIABLE.match(p.strip("{}")) for p in self.cases[0].patterns):
            return None
        types = [part.strip() for part in top_level(self.signature, "→")]
        named = []  # (argument, type), or a binder as it stands
        for pattern in self.cases[0].patterns:
            while types and types[0].startswith("{") and not pattern.startswith("{"):
                named.append(types.pop(0))
            if len(types) < 2 or not take_argument(pattern, types.pop(0), named):
                return None
        return " ".join([self.name, *arguments(named)]) + f" : {' → '.join(types)}"


def take_argument(pattern, kind, named):
    """Puts an argument to the others, if its pattern is the name that the signature has for it."""
    is_whole = kind[0] in "({" and len(top_level(kind, " ")) == 1
    binder = re.match(r"[({]([\w']+) : ", kind)
    if binder:
        named.append(kind)
        return is_whole and binder[1] == pattern.strip("{}")
    named.append((pattern, kind[1:-1] if is_whole else kind))
    return True


def arguments(named):
    """The arguments with their types, those of one type together."""
    out = []
    for each in named:
        if isinstance(each, str):
            out.append(each)
        elif out and not isinstance(out[-1], str) and out[-1][1] == each[1]:
            out[-1] = (f"{out[-1][0]} {each[0]}", each[1])
        else:
            out.append(each)
    return [each if isinstance(each, str) else f"({each[0]} : {each[1]})" for each in out]


def antt_members(lines):
    """The head of a record, or of a type by its constructors, and its members, each with its comment."""
    head, _, body = "\n".join(lines).partition(" where\n")
    members, told = [], []
    for part in groups([line[2:] for line in body.split("\n") if line.strip()]):
        text = "\n".join(part)
        if text.startswith("--"):
            told.append(flat(text[2:]))
        else:
            members.append((flat(re.sub(r"^pub ", "", text)), " ".join(told)))
            told = []
    return re.sub(r" : Type 0$", "", flat(re.sub(r"^pub ", "", head))), members


def rust_members(lines):
    """The head of a type of Rust and its variants or fields, each with its comment; of an alias only its text."""
    text = re.sub(r"^( *)pub(\(\w+\))? ", r"\1", "\n".join(lines), flags=re.M)
    head, brace, body = text.partition("{")
    if not brace:
        return flat(text).rstrip(";"), []
    return flat(head), list(with_comments(body[:body.rindex("}")]))


def with_comments(body):
    """The variants or fields of a type, each with the lines of comment over it and within it."""
    text, told = "", []
    for line in body.split("\n"):
        found = re.match(r" *///(.*)$", line)
        if found:
            told.append(found[1].strip())
            continue
        text += re.sub(r"//.*", "", line) + "\n"
        *whole, text = split_members(text)
        for member in whole:
            yield flat(member), " ".join(told)
            told = []
    if text.strip():
        yield flat(text), " ".join(told)


def split_members(text):
    """The members that end with a comma, and what stands behind the last of these."""
    depth, begun, out = 0, "", []
    for character in text:
        depth += (character in "([{<") - (character in ")]}>")
        if character == "," and depth == 0:
            out.append(begun)
            begun = ""
        else:
            begun += character
    return out + [begun]
