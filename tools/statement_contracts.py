"""The contracts with which the statement begins, clause by clause."""
import re

from statement_list import LEFT_OUT
from statement_read import Stop, closing, comment_above, ghost_imports


class Clause:
    """A clause of a contract: its kind, its name, its text, and the comment over it."""

    def __init__(self, kind, name, text, comment):
        self.kind = kind  # "ghost", "requires" or "ensures"
        self.name = name
        self.text = text
        self.comment = comment


class Contract:
    """The contract of a function: its signature and its clauses."""

    def __init__(self, source, root):
        self.root = root  # the function, as `kcr_desk::serve` or `kcr_store::Register::adopt`
        self.source = source
        self.path = source.path
        text, function = source.text, root.split("::")[-1]
        found = re.search(r"^( *)pub fn " + function + r"\b", text, re.M)
        if not found:
            raise Stop(f"{source.path} has no `pub fn {function}`")
        indent = found[1]
        end = re.search(r"\n" + indent + r"\{\}?\n", text[found.start():])
        self.lines = text[found.start():found.start() + end.start()].split("\n")
        at = text.count("\n", 0, found.start())
        self.comment = comment_above(text.split("\n"), at, "///")
        self.imports = block_imports(text, found.start()) if indent else {}
        self.clauses = []
        self.read_clauses(len(indent))
        head = text[text.rfind("\nimpl", 0, found.start()):].split("{")[0] if indent else ""
        self.bounds = dict(re.findall(r"\b([A-Z]): (\w+)", head + self.signature))

    def read_clauses(self, indent):
        whole = "\n".join(line[indent:] for line in self.lines)
        starts = list(re.finditer(r"^    (ghost|requires\*?|ensures\*?) ?(\w*):? \{", whole, re.M))
        if not starts:
            raise Stop(f"{self.root} has no clause")
        lines, ends = whole.split("\n"), [starts[0].start()]
        for start in starts:
            between = re.sub(r"//.*", "", whole[ends[-1]:start.start()])
            if between.strip():
                raise Stop(f"{self.root} has what is no clause: {between.strip()}")
            ends.append(closing(whole, start.end() - 1) + 1)
            if (self.root, start[2]) in LEFT_OUT:
                continue
            comment = comment_above(lines, whole.count("\n", 0, start.start()), "//")
            self.clauses.append(Clause(start[1], start[2], whole[start.start():ends[-1]], comment))
        self.signature = re.sub(r"\n *//.*", "", whole[:starts[0].start()]).rstrip()


def block_imports(text, at):
    """What the `impl` block around a place imports for its clauses."""
    return ghost_imports(text[max(found.start() for found in re.finditer(r"^impl\b", text[:at], re.M)):at])
