"""Reads the sources of the statement: the definitions in `specs/` and `proofs/`, and the types in `src/`."""
import re

# what `tools/tables.py` says of itself
NOTE = re.compile(r"(//|--) (Written by|begin: written by|end: written by) tools/tables\.py")
MODIFIERS = ("abbrev", "unfoldable", "pub", "record", "data")


class Stop(Exception):
    """Why the statement cannot be written."""


class Item:
    """A definition of antt, or a type of Rust, with its comment and its text."""

    def __init__(self, kind, name, path, comment, lines):
        self.kind = kind  # "definition", "record", "data", "type", "alias", "trait" or "constant"
        self.name = name
        self.path = path  # the file, from the top of the repository
        self.comment = comment  # its lines, without their marks
        self.lines = lines
        self.section = []  # the comment of the section of the file in which it stands

    def text(self):
        return "\n".join(self.lines)

    def key(self):
        return (self.path, self.name)


class Source:
    """A file: its items by name, in their order, and its imports."""

    def __init__(self, path):
        self.path = path
        self.about = []  # what the file says of itself
        self.items = {}
        self.constructors = {}  # of `data` -> its item
        self.rust = {}  # the names that the Rust of this file imports -> their paths
        self.models = {}  # of structs, by name
        self.imports = {}  # the name in this file -> (module, name), or (module, None) for a module itself
        self.is_whole = True  # nothing in it was passed over
        self.exports = []  # modules whose names this file hands on


def import_line(source, text):
    """Takes in what a `use` or `ghost use` names."""
    text = " ".join(text.split()).rstrip(";")
    text = text.removeprefix("unfoldable ")
    handed_on = text.startswith("pub use")
    text = re.sub(r"^(pub |ghost )?use ", "", text).replace("«", "").replace("»", "")
    listed = re.match(r"(.*?)\.\{(.*)\}$", text)
    if listed:
        for part in filter(None, (p.strip() for p in listed[2].split(","))):
            path, _, other = part.partition(" as ")
            *below, name = path.split(".")
            module = ".".join([listed[1], *below])
            source.imports[other or name] = (module, name)
            if handed_on:
                source.exports.append((other or name, module, name))
        return
    module, _, other = text.partition(" as ")
    source.imports[other or module.split(".")[-1]] = (module, None)


def head_name(line):
    """The kind and the name of the definition that a line begins, or None."""
    words = line.split()
    kind, at = "definition", 0
    while at < len(words) and words[at] in MODIFIERS:
        if words[at] in ("record", "data"):
            kind = words[at]
        at += 1
    if at == len(words) or (at == 0 and not re.match(r"\S+ :( |$)", line)):
        return None
    return kind, words[at]


def read_antt(path, text):
    """The definitions of a file of antt."""
    source = Source(path)
    comment, current, section = [], None, []
    for line in text.split("\n"):
        if NOTE.match(line):
            continue
        if not line.strip():
            section, comment = comment or section, []  # a comment over no definition is that of a section
        elif line.startswith(("use ", "pub use ", "unfoldable pub use ")):
            source.about, comment = comment or source.about, []
            import_line(source, line)
        elif line.startswith("--"):
            comment.append(line[2:].strip())
        elif line[0].isspace() or line[0] in "})":
            current.lines.append(line)
        elif line.startswith(("pub mod ", "unfolding ")):
            continue
        else:
            begun = head_name(line)
            if begun:
                current = Item(begun[0], begun[1], path, comment, [line])
                current.section = section
                source.items[begun[1]] = current
            elif line.split()[0] in source.items:
                current = source.items[line.split()[0]]
                current.lines.append(line)
            elif "/specs/" in path:
                raise Stop(f"{path} has a line that begins no definition: {line}")
            else:  # a block of lemmas: what stands in it goes to an item that nobody names
                current, source.is_whole = Item("definition", "", path, [], [line]), False
            comment = []
    for item in source.items.values():
        if item.kind == "data":
            for words in re.findall(r"^  (\w[^:]*) :", item.text(), re.M):
                source.constructors.update((word, item) for word in words.split())
    return source


def blanked(text):
    """The text with spaces in place of its comments and of what stands in quotes."""
    return re.sub(r"""//[^\n]*|"(?:[^"\\]|\\.)*"|'(?:[^'\\]|\\.)'""", lambda found: " " * len(found[0]), text)


def closing(text, at):
    """Where the brace or parenthesis that opens at `at` is closed."""
    text, depth = blanked(text), 0
    for place in range(at, len(text)):
        depth += (text[place] in "{(") - (text[place] in "})")
        if depth == 0:
            return place
    raise ValueError("a brace is not closed")


def comment_above(lines, at, mark):
    """The comment over line `at`, past attributes."""
    above = []
    while at > 0 and re.match(r"\s*(#\[|" + mark + r"( |$))", lines[at - 1]):
        at -= 1
        if not lines[at].lstrip().startswith("#["):
            above.insert(0, lines[at].strip()[len(mark):].strip())
    return above


TYPE = re.compile(r"^(?:pub(?:\(\w+\))? )?(enum|struct|type|trait|const|static) (\w+)", re.M)
KINDS = {"enum": "type", "struct": "type", "type": "alias", "trait": "trait", "const": "constant", "static": "constant"}


def item_end(text, at):
    """Where the item that begins at `at` ends: behind its closing brace, or behind a semicolon, whichever comes first
    outside of all brackets."""
    plain, depth = blanked(text), 0
    for place in range(at, len(text)):
        if plain[place] == ";" and depth == 0:
            return place + 1
        depth += (plain[place] in "{([") - (plain[place] in "})]")
        if plain[place] == "}" and depth == 0:
            return place + 1
    raise ValueError("an item does not end")


def read_rust(path, text):
    """The types, traits and constants of a file of Rust, and what its clauses import."""
    source = Source(path)
    lines = text.split("\n")
    for use in re.finditer(r"^ghost use [^;]*;", text, re.M):
        import_line(source, use[0])
    for found in TYPE.finditer(text):
        at = text.count("\n", 0, found.start())
        body = text[found.start():item_end(text, found.start())]
        item = Item(KINDS[found[1]], found[2], path, comment_above(lines, at, "///"), body.split("\n"))
        source.items[found[2]] = item
    source.text = text
    source.rust = rust_imports(text)
    source.models = models(text)
    return source


def rust_imports(text):
    """The names that the Rust of a file imports: name -> path in Rust's spelling."""
    named = {}
    for use in re.finditer(r"^(?:pub )?use ([^;]*);", text, re.M):
        path = " ".join(use[1].split())
        listed = re.match(r"(.*)::\{(.*)\}$", path)
        for part in (listed[2].split(",") if listed else [path]):
            part = part.strip()
            if part:
                named[part.split("::")[-1]] = (listed[1] + "::" if listed else "") + part
    return named


def ghost_imports(text):
    """The names that a piece of Rust imports for its clauses."""
    source = Source("")
    for use in re.finditer(r"\bghost use [^;]*;", text):
        import_line(source, use[0])
    return source.imports


class Model:
    """What clauses see of a struct: its value, and the names that this imports."""

    def __init__(self, body, value):
        self.value = body[value + 1:closing(body, value)].strip()
        self.imports = ghost_imports(body)


def models(text):
    """The models of the structs of a file that have a value."""
    found = {}
    for block in re.finditer(r"^impl(?:<[^{]*?>)? Model for (\w+)[^{]*\{", text, re.M):
        body = text[block.start():closing(text, block.end() - 1)]
        value = body.find("ghost Value = {")
        if value >= 0:
            found[block[1]] = Model(body, value + len("ghost Value = "))
    return found
