"""Lays out the definitions of the statement: the same words as in their files, on as few lines as they need."""
import textwrap

from statement_antt import Definition, antt_members, flat, pieces, rust_members, top_level

WIDTH = 120
OPERATORS = set("∷ ++ && || → × ⊎ ↔ ≡ ≢ ≤ < + * : | if then else let where".split())


def laid_out(item, lines, model=None):
    """An item with its comment. The comment follows its head, if both fit on a line. The lines are its own, with other
    names for variants; the model is the value that clauses see of a type in its place."""
    return with_comment(item_lines(item, lines, model), " ".join(item.comment))


def with_comment(lines, told):
    if not told:
        return lines
    if (len(lines) == 1 or is_head(*lines[:2])) and len(lines[0]) + len(told) + 5 <= WIDTH:
        return [f"{lines[0]}  -- {told}", *lines[1:]]
    return comment(told, lines[0][:len(lines[0]) - len(lines[0].lstrip())]) + lines


def is_head(line, below):
    """Whether a line is all of a head, and not the beginning of something that was cut."""
    return line.endswith((" =", " where", " {")) or below.startswith("  | ")


def comment(text, indent=""):
    return textwrap.wrap(text, WIDTH, initial_indent=indent + "-- ", subsequent_indent=indent + "-- ",
                         break_long_words=False, break_on_hyphens=False)


def item_lines(item, lines, model):
    if model:
        return filled(f"type {item.name} = {model}")
    if item.kind == "definition":
        return definition_lines(Definition(lines))
    if item.kind in ("record", "data"):
        head, members = antt_members(lines)
        if item.kind == "data":
            return packed(head, ["| " + text for text, _ in members])
        return members_lines(head + " where", members, ";", "")
    if item.kind == "constant":
        return constant_lines(flat("\n".join(lines)).removeprefix("pub ").rstrip(";"))
    head, members = rust_members(lines)
    return members_lines(head + " {", members, ",", " }") if members else filled(head)


def constant_lines(text):
    """A constant; of a list as many elements on a line as fit."""
    head, listed, elements = text.partition(" = [")
    if not listed:
        return filled(text)
    elements = [element.strip() for element in top_level(elements.rstrip("], "), ",")]
    return packed(head + listed, [element + "," for element in elements[:-1]] + [elements[-1] + "]"])


def definition_lines(definition):
    """A definition of one case as `name (argument : type) : type = value`, another with `|` before each case."""
    head = definition.function_head()
    if head:
        return case_lines(head, definition.cases[0])
    cases = [case_lines(" ".join(["|", *case.patterns]), case, "  ") for case in definition.cases]
    return packed(f"{definition.name} : {definition.signature}", [text_or_lines(lines) for lines in cases])


def text_or_lines(lines):
    return lines[0].strip() if len(lines) == 1 else lines


def case_lines(head, case, indent=""):
    """A head and the value of a case: on one line, or the value below, or cut where it is best."""
    local = "".join(f" where {text}" for text in map(local_text, case.locals))
    whole = f"{head} = {case.value}{local}"
    if len(indent + whole) <= WIDTH:
        return [indent + whole]
    below = [indent + "    " + local.strip()] if local else []
    if len(below) == 1 and len(below[0]) > WIDTH:
        below = filled(local.strip(), indent + "    ")
    if len(indent) + len(head) + len(case.value) + 3 <= WIDTH or len(indent) + len(case.value) + 4 > WIDTH:
        return filled(f"{head} = {case.value}", indent) + below
    return filled(f"{head} =", indent) + [f"{indent}    {case.value}"] + below


def local_text(definition):
    """A function that a case defines for itself."""
    head = definition.function_head()
    cases = definition.cases
    if head:
        return f"{head} = {cases[0].value}"
    return " ".join([f"{definition.name} : {definition.signature}",
                     *(" ".join(["|", *case.patterns, "=", case.value]) for case in cases)])


def members_lines(head, members, mark, after):
    """A record or a choice: the members in a row, one that has a comment on a line of its own."""
    out, row = [], []
    last = len(members) - 1
    texts = [(text + (mark if at < last else after), told) for at, (text, told) in enumerate(members)]
    if not any(told for _, told in texts):
        return packed(head, [text for text, _ in texts])
    for text, told in texts:
        if told:
            out += in_rows(row) + with_comment(filled(text, "  "), told)
            row = []
        else:
            row.append(text)
    return filled(head) + out + in_rows(row)


def packed(head, parts):
    """A head and parts, on one line if they fit; a part of several lines stands alone."""
    if all(isinstance(part, str) for part in parts) and len(" ".join([head, *parts])) <= WIDTH:
        return [" ".join([head, *parts])]
    return filled(head) + in_rows(parts)


def in_rows(parts):
    """Parts, as many on a line as fit, none of them cut if it fits on a line."""
    out, line = [], ""
    for part in parts:
        lines = filled(part, "  ") if isinstance(part, str) else part
        if line and len(lines) == 1 and len(line) + len(lines[0].strip()) + 1 <= WIDTH:
            line += " " + lines[0].strip()
            continue
        out += [line] if line else []
        line = lines[0] if len(lines) == 1 else ""
        out += lines if len(lines) > 1 else []
    return out + ([line] if line else [])


def filled(text, indent=""):
    """A text on lines of at most `WIDTH`, each after the first indented, cut where the fewest brackets are open."""
    words = [(word, depth) for word, depth, _ in pieces(text, " ")]
    out, line = [], indent
    while words:
        room = WIDTH - len(line)
        count = fitting(words, room)
        if count < len(words):
            count = best_cut(words, count, room)
        out.append(line + " ".join(word for word, _ in words[:count]))
        words, line = words[count:], indent + "    "
    return out


def fitting(words, room):
    """How many words fit, at least one."""
    length = -1
    for at, (word, _) in enumerate(words):
        length += len(word) + 1
        if length > room:
            return max(at, 1)
    return len(words)


def best_cut(words, most, room):
    """The number of words on a line that is cut at the best place in its second half."""
    best, length = most, sum(len(word) + 1 for word, _ in words[:most])
    for at in range(most, 0, -1):
        if length < room // 2:
            break
        if cost(words, at) < cost(words, best):
            best = at
        length -= len(words[at - 1][0]) + 1
    return best


def cost(words, at):
    """How bad a cut before a word is: by the brackets that are open, best before an operator or behind a field."""
    before, (after, depth) = words[at - 1][0], words[at]
    if after in OPERATORS or before[-1] in ";," or (before in ("=", "in") and depth == 0):
        return depth, 0
    return depth, 2 if before == "=" else 1
