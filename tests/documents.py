#!/usr/bin/env python3
"""The documents: their examples run, and what they list is what the code has.

    tests/documents.py PROGRAM [NAME ..]

Shown are: that each example of docs/API.md, docs/AUDIT.md and README.md gets the bytes that the page shows; that
docs/openapi.yaml and the headings of docs/API.md have each path of the program with its methods and no other; that the
program takes exactly the parts of paths and the members of bodies that docs/openapi.yaml says, shown by values around
each form and bound; that the examples fit the schemas; that the refusals in docs/REFUSALS.md, docs/API.md and
docs/openapi.yaml have the numbers, words, statuses and members of the code, and docs/kcr.1 their sentences; that the
man page, and docs/OPERATING.md and docs/AUDIT.md together, have each line that the program prints for a fault or a
finding, and no other; that each number of things that a page counts is that of the things, and each list of crates,
files, scripts and mutants has those that are there; that the commands of docs/EXAMPLE.md run; and that the pages stay
short. With names only the tests with these names run. Examples with sqlite3 are left out if it is missing, and
docs/openapi.yaml without PyYAML. What docs/OPERATING.md says of a machine is tried by `operating.py`, the first screen
of README.md by `examples.py`.

An example is a fenced block of a page. `http request` has requests, and the block `http answer` behind it their
answers. Each line of a head is sent with CR LF, a body is as long as its head says, and the empty lines between two
messages are not sent. `http request new` begins with an empty register, each other block continues the one before; a
stream of such blocks runs over memory and over a file. `sh example` has commands, in which `kcr` is the program, and
`sh example 1` such that end with status 1; `text output` and `text error` behind it have what they write, in lines that
end with LF. They run in a folder that has `examples` and `tests`, and a file `register.db` with what the requests
before have entered.

The last line is `N passed, M failed`, and the status is 0 where none failed.
"""
import sys

sys.dont_write_bytecode = True  # no files beside these

import contextlib
import fnmatch
import functools
import itertools
import json
import os
import pathlib
import re
import subprocess
import tempfile

import kcr
from kcr import HERE, SECONDS, Wrong, call, expect

yaml = kcr.debian_module("yaml")
ROOT = HERE.parent
sys.path.append(str(ROOT / "tools"))
import manual  # noqa: E402
REGISTER = "register.db"
PLANS_KEPT = 64  # by the kit's connection, as its README says
NEVER_WHOLE = (  # by a request
    "appointments", "steps", "seatings", "sheet", "exceptions", "stays", "items", "keys", "versions")
BEGIN_AND_COMMIT = 2
MOST_WORDS = 23_000
METHODS = "GET HEAD POST PUT PATCH DELETE OPTIONS get".split()
MARKED = re.compile(r"(?ms)^```(http|sh|text) (request|answer|example|output|error)( new| [0-9]+)?\n(.*?)^```$")
MARK = re.compile(r"(?m)^```(?:http|sh [^`\n]|text [^`\n])")


def text_of(name):
    """The text of a file of the repository."""
    return (ROOT / name).read_text(encoding="utf-8")


def agree(what, wanted, found):
    """Says what is wrong where two lists have not the same members in the same order."""
    for one, other, word in ((wanted, found, "is missing"), (found, wanted, "is too much")):
        for member in one:
            if member not in other:
                raise Wrong(f"{what}: {member!r} {word}")
    expect(what, list(wanted), list(found))


# The examples of a page

class Example:
    """A block of a page with the blocks of its answers, and its stream: the examples before it since the last `new`."""

    def __init__(self, page, line, word, text, stream):
        self.name = f"{page}:{line}"
        self.word = word
        self.text = text
        self.answers = {}
        self.stream = stream


def examples_of(page):
    """The examples of a page, in their order."""
    text, found, stream = text_of(page), [], []
    expect(f"{page}: the marks of blocks", len(MARKED.findall(text)), len(MARK.findall(text)))
    for block in MARKED.finditer(text):
        line = text.count("\n", 0, block.start()) + 1
        kind, word, content = block[2], (block[3] or "").strip(), block[4]
        if kind in ("request", "example"):
            if word == "new":
                stream = []
            found.append(Example(page, line, word if kind == "example" else None, content, stream))
            stream.append(found[-1])
        elif found and kind not in found[-1].answers:
            found[-1].answers[kind] = content
        else:
            raise Wrong(f"{page}:{line}: a block {kind} with no example before it")
    return found


def parted(text, methods=None):
    """The messages of a block, each a head and a body; with methods they are answers to requests with these."""
    found, methods = [], iter(methods or ())
    text = text.encode()
    while text := text.lstrip(b"\n"):
        head, _, rest = text.partition(b"\n\n")
        head = head.rstrip(b"\n")
        if rest.startswith(b"POST "):  # a feed, which is the last answer of its block
            feed = b"".join(itertools.chain.from_iterable(parted(rest.decode())))
            return [*found, (head.replace(b"\n", b"\r\n") + b"\r\n\r\n", feed)]
        length = re.search(rb"(?im)^content-length: ([0-9]+)$", head)
        bare = not head.startswith(b"HTTP/1.1 100 ") and next(methods, b"") == b"HEAD"
        end = int(length[1]) if length and not bare else 0
        if rest[end:end + 1] not in (b"", b"\n") and end:
            raise Wrong(f"a body is longer than its head says: {rest!r:.200}")
        found.append((head.replace(b"\n", b"\r\n") + b"\r\n\r\n", rest[:end]))
        text = rest[end:]
    return found


def requests_of(example):
    """The requests of an example, as they are sent."""
    found = parted(example.text) if example.word is None else []
    if any(body.endswith(b"\n") for _, body in found):
        raise Wrong("a body is shorter than its head says")
    return [head + body for head, body in found]


def method_of(message):
    """The method of a request."""
    return message.split(b" ")[0]


def wanted(example):
    """The bytes that answer the requests of an example."""
    if "answer" not in example.answers:
        raise Wrong("a request without an answer")
    parts = parted(example.answers["answer"], map(method_of, requests_of(example)))
    return b"".join(head + body for head, body in parts)


@functools.cache
def told(program, stream, over_file):
    """What each example of a stream is answered."""
    requests = [requests_of(example) for example in stream]
    with tempfile.TemporaryDirectory() as room:
        words = ["--file", pathlib.Path(room) / REGISTER] if over_file else []
        output, faults, status = call(program, "run", *words, stream=b"".join(itertools.chain(*requests)))
    expect("the end of the stream", (b"", 0), (faults, status))
    answers = iter(kcr.answers(output, list(itertools.chain(*requests))))
    return [b"".join(itertools.islice(answers, len(own))) for own in requests]


def requested(program, example, _):
    """An example of requests over memory and over a file."""
    for over_file in (False, True):
        got = told(program, tuple(example.stream), over_file)[example.stream.index(example)]
        expect("the answers over a file" if over_file else "the answers", wanted(example), got)


def entered(program, example, room):
    """Makes the file with what the requests before an example have entered."""
    before = example.stream[:example.stream.index(example)]
    requests = b"".join(itertools.chain.from_iterable(map(requests_of, before)))
    if requests:
        call(program, "run", "--file", room / REGISTER, stream=requests)


def commanded(program, example, room):
    """An example of commands, behind those of its stream that stand before it."""
    for name in ("examples", "tests"):
        (room / name).symlink_to(ROOT / name)
    (room / "bin").mkdir()
    (room / "bin" / "kcr").symlink_to(program)
    entered(program, example, room)
    path = f"{room / 'bin'}:{os.environ['PATH']}"
    for other in example.stream[:example.stream.index(example) + 1]:
        if other.word is not None:
            run = subprocess.run(["sh", "-c", other.text], cwd=room, env={**os.environ, "PATH": path},
                                 capture_output=True, timeout=SECONDS)
    expect("the status", int(example.word or 0), run.returncode)
    for kind, text in (("output", run.stdout), ("error", run.stderr)):
        if kind in example.answers or kind == "error":
            expect(f"the {kind}", example.answers.get(kind, "").encode(), in_lines(text))


def in_lines(text):
    """What a program wrote as whole lines that end with LF."""
    return text.replace(b"\r\n", b"\n") + (b"" if text.endswith(b"\n") or not text else b"\n")


def examples(program, page):
    """The tests of the examples of a page, and one that each of its blocks with a mark is one or belongs to one."""
    yield page, "its blocks", lambda _: examples_of(page)
    with contextlib.suppress(Wrong):
        for example in examples_of(page):
            if "sqlite3 " in example.text and not kcr.is_here("sqlite3", example.name):
                continue
            test = requested if example.word is None else commanded
            yield example.name, example.text.splitlines()[0], functools.partial(test, program, example)


# The refusals

@functools.cache
def refusals():
    """Each refusal of the code: its number, word and status, and the member that it carries."""
    text = text_of("crates/kcr_base/src/refusal.rt")
    functions = {name: part for name, part in re.findall(r"(?s)pub fn (\w+)\(&self\)(.*?)\n    }\n", text)}
    number, word, status = (dict(re.findall(rf"Refusal::(\w+)(?: \{{ \.\. \}})? => {value},", functions[name]))
                            for name, value in (("number", "([0-9]+)"), ("word", '"(.*?)"'), ("status", "([0-9]+)")))
    carried = dict(re.findall(r"(?m)^    (\w+) \{ (\w+): \w+ \},$", text))
    return {int(number[name]): (word[name], int(status[name]), carried.get(name, "")) for name in number}


def tabled(_):
    """docs/REFUSALS.md has a row for each refusal of the code, in order."""
    row = r"(?m)^\| ([0-9]+) \| `(\w+)` \| ([0-9]+) \| [^|]+ \| (?:`(\w+)`[^|]*)?\| [^|]+ \| [^|]+ \|$"
    found = [(int(number), (word, int(status), carried))
             for number, word, status, carried in re.findall(row, text_of("docs/REFUSALS.md"))]
    agree("the rows", sorted(refusals().items()), found)


@functools.cache
def functions(crate):
    """The bodies of the functions of a crate's code, by name; those with one name together."""
    found = {}
    for file in sorted((ROOT / "crates" / crate / "src").glob("*.rt")):
        parts = re.split(r"(?m)^ *(?:pub(?:\(crate\))? )?fn (\w+)", file.read_text(encoding="utf-8"))
        for name, body in zip(parts[1::2], parts[2::2]):
            found[name] = found.get(name, "") + body
    return found


DECIDING = "kcr_people kcr_custody kcr_room kcr_rules kcr_script kcr_seats kcr_machine".split()
NOT_FIRST = {  # functions that give a refusal which an earlier one has given before them
    (20, "kcr_rules::changed_stays"), (22, "kcr_room::add_rows"), (22, "kcr_room::add_stays"),
    (24, "kcr_room::add_rows"), (24, "kcr_rules::record_sheet")}


def decided(_):
    """docs/REFUSALS.md names beside each refusal the functions that have it in their bodies: those of 11 to 32 are all
    of the crates that decide. The table of what 10 names has the members of the code."""
    text, crate, told = text_of("docs/REFUSALS.md"), None, set()
    code = text_of("crates/kcr_base/src/refusal.rt")
    numbers = re.findall(r"Refusal::(\w+)(?: \{ \.\. \})? => ([0-9]+),", functions("kcr_base")["number"])
    variants = {int(number): name for name, number in numbers}
    rows = re.findall(r"(?m)^\| ([0-9]+) \| `\w+` \|.*\| ([^|]+) \|$", text)
    expect("rows with a function", len(variants), len(rows))
    for number, cell in rows:
        for name in re.findall("`([^`]+)`", cell):
            crate, _, name = name.rpartition("::") if "::" in name else (crate, "", name)
            body = functions(crate).get(name, "")
            expect(f"{crate}::{name} gives {number}", True, f"Refusal::{variants[int(number)]}" in body)
            told.add((int(number), f"{crate}::{name}"))
    given = {(number, f"{crate}::{name}") for crate in DECIDING for name, body in functions(crate).items()
             for number, variant in variants.items() if 11 <= number <= 32
             and f"Refusal::{variant}" in re.sub("//.*", "", body)}
    expect("the functions that are not named", NOT_FIRST, given - told)
    members = re.search(r"(?s)\| Members \| Form \|\n(.*?)\n\n", text)[1]
    agree("the members", sorted(re.findall(r'Member::\w+ => "(\w+)"', code)),
          sorted(re.findall(r"`(\w+)`", " ".join(re.findall(r"(?m)^\| (`[^|]*) \|", members)))))


def named(_):
    """Each refusal that a page names with its number and its word is one of the code."""
    for page in ("docs/API.md", "docs/REFUSALS.md", "docs/OPERATING.md", "docs/AUDIT.md", "README.md"):
        for number, word in re.findall(r"\b([0-9]+) `([a-z]+)`", text_of(page)):
            expect(f"{page}: the word of {number}", refusals().get(int(number), ("none",))[0], word)


def described(_):
    """docs/openapi.yaml has the refusals of the code, and names each under its status."""
    refusal = schemas()["Refusal"]["properties"]
    agree("the words", [refusals()[number][0] for number in sorted(refusals())], refusal["refusal"]["enum"])
    expect("the greatest number", max(refusals()), refusal["number"]["maximum"])
    agree("what they carry", sorted({carried for _, _, carried in refusals().values()} - {""}),
          sorted(set(refusal) - {"number", "refusal"}))
    found = {}
    for _, _, operation in operations():
        for status, response in operation["responses"].items():
            if status.isdigit() and status != "200":
                found[int(status)] = re.findall(r"([0-9]+) (\w+)", resolved(response)["description"])
    for number, (word, status, _) in refusals().items():
        if status != 405:  # no method that stands there is refused
            expect(f"the description of {status} has {number}", True, (str(number), word) in found.get(status, []))
    expect("how many are described", len(refusals()) - 1, sum(map(len, found.values())))


def listed(_):
    """docs/openapi.yaml has the status of each refusal that docs/API.md lists under a path, and a 404 only if the path
    has a part or something may be unknown."""
    parts = re.split(r"(?m)^### (GET|POST) (/\S+)$", text_of("docs/API.md"))
    for method, path, text in zip(parts[1::3], parts[2::3], parts[3::3]):
        line = re.search(r"(?m)^Refusals: (.*)$", text)
        if not line:
            raise Wrong(f"{method} {path} lists no refusals")
        statuses = document()["paths"][path][method.lower()]["responses"]
        may_miss = "{" in path or re.search(r"\b12 |`act`", line[1]) is not None
        expect(f"{method} {path} has a 404", may_miss, "404" in statuses)
        for number in re.findall(r"\b([0-9]+) `", line[1]):
            status = str(refusals()[int(number)][1])
            expect(f"{method} {path} has the status of {number}", True, status in statuses)


def worded(_):
    """docs/REFUSALS.md has a sentence for each refusal, which names the member that it carries once, and one for each
    value of 30 and 31; docs/kcr.1 has the same sentences."""
    text = text_of("docs/REFUSALS.md")
    for number, word, _, sentence, _ in manual.rows(text):
        member = refusals()[number][2]
        expect(f"how often {number} {word} names what it carries", 1 if member else 0,
               sentence.count(f"`{member}`") if member else 0)
        expect(f"the end of {number} {word}", ".", sentence[-1])
    parts = re.findall(r'Part::\w+ => "(\w+)"', text_of("crates/kcr_base/src/refusal.rt"))
    wanted_ones = [(30, "initials"), (30, "place"), (30, "`CA`"), *((31, f"`{part}`") for part in parts)]
    agree("the values with a sentence", wanted_ones, [(number, value) for number, value, _ in manual.values(text)])
    page = text_of("docs/kcr.1")
    expect("docs/kcr.1 (tools/manual.py writes its list)", manual.page_of(text, page).encode(), page.encode())


def lined(_):
    """docs/kcr.1 has each line that the program prints for a fault or a finding, and no other; so have
    docs/OPERATING.md and docs/AUDIT.md together."""
    code = "".join(text_of(f"crates/{name}.rt") for name in ("kcr_fault/src/fault", "kcr_tool/src/audit",
                                                             "kcr_tool/src/verify"))
    lines = {line.split("\\n")[0].strip() for line in re.findall(r'"((?:open|into|fault|finding): [^"]*)"', code)}
    expect("whether lines were found", True, len(lines) > 20)
    kinds = "(?:open|into|fault|finding)"
    pages = text_of("docs/OPERATING.md") + text_of("docs/AUDIT.md")
    for where, shown in (("the man page", re.findall(rf"(?m)^\.It ({kinds}: .*)$", text_of("docs/kcr.1"))),
                         ("the pages", re.findall(rf"`({kinds}: [^`]+)`", pages))):
        heads = {" ".join(line.split(" ")[:2]) for line in shown}
        agree(f"the lines of {where}", sorted(lines), sorted(heads))
    for second in re.findall(r'"(broken: [^\\]+)', code):
        expect(f"the line {second!r} in docs/kcr.1", True, f".Ql {second}" in text_of("docs/kcr.1"))
        expect(f"the line {second!r} in the pages", True, f"`{second}`" in pages)
    for note in ("no file is named", "register.db is not there", "register.db has no command"):
        expect(f"the note {note!r} in docs/kcr.1", True, f".It note: {note}\n" in text_of("docs/kcr.1"))
        expect(f"the note {note!r} in the pages", True, f"`note: {note}`" in pages)


# The parts of docs/openapi.yaml

@functools.cache
def document():
    """docs/openapi.yaml as a value."""
    return yaml.safe_load(text_of("docs/openapi.yaml"))


def schemas():
    """The schemas, by name."""
    return document()["components"]["schemas"]


def resolved(part):
    """A part of the document, or the one that it refers to."""
    while "$ref" in part:
        names = part["$ref"].removeprefix("#/").split("/")
        part = functools.reduce(lambda whole, name: whole[name], names, document())
    return part


def operations():
    """Each path with each method that it takes, and what is said of both."""
    for path, item in document()["paths"].items():
        for method in item:
            if method != "parameters":
                yield path, method.upper(), item[method]


def schema_in(part):
    """The schema of a body in JSON, or None."""
    return resolved(part).get("content", {}).get("application/json", {}).get("schema")


# Schemas

TYPES = {"string": str, "integer": int, "boolean": bool, "array": list, "object": dict}


def is_typed(value, name):
    """Whether a value is of this type; true and false are no numbers."""
    return isinstance(value, TYPES[name]) and (name == "boolean" or not isinstance(value, bool))


def fits(schema, value):
    """Whether a value is one of a schema, by the words of JSON Schema that the document uses."""
    schema = resolved(schema)
    if not is_typed(value, schema["type"]) or value not in schema.get("enum", [value]):
        return False
    if isinstance(value, str):
        return re.fullmatch(schema.get("pattern", "(?s).*"), value) is not None
    if isinstance(value, int):
        return schema.get("minimum", value) <= value <= schema.get("maximum", value)
    if isinstance(value, list):
        distinct = not schema.get("uniqueItems") or all(value.count(item) == 1 for item in value)
        size = schema.get("minItems", 0) <= len(value) <= schema.get("maxItems", len(value))
        return distinct and size and all(fits(schema["items"], item) for item in value)
    return (set(schema["required"]) <= set(value) <= set(schema["properties"])
            and all(fits(schema["properties"][name], value[name]) for name in value))


def sample(schema):
    """A value of a schema: its example, or a list of one."""
    schema = resolved(schema)
    if schema["type"] == "array":
        return [sample(schema["items"])]
    return True if schema["type"] == "boolean" else schema["examples"][0]


def changed(text):
    """Texts that differ from a text in one place, and some that are longer."""
    yield from (text * 2, text + "\n", " " + text, text.lower())
    for place in range(min(len(text), 20)):
        before, after = text[:place], text[place + 1:]
        yield from (before + after, before + "1" + text[place:])
        yield from (before + other + after for other in "0139AZaz- /:\x1f\x7fé")


def dates():
    """Texts of days, and of moments on them, that are and that are not."""
    for year, month, day in itertools.product((1999, 2000, 2023, 2024, 2099, 2100), (0, 1, 2, 4, 12, 13),
                                              (0, 1, 28, 29, 30, 31, 32)):
        yield from (f"{year}-{month:02}-{day:02}", f"{year}-{month:02}-{day:02}T20:00:00Z")
    for hour, minute, second in itertools.product(("00", "19", "23", "24"), ("00", "59", "60"), ("00", "59", "60")):
        yield f"2025-02-13T{hour}:{minute}:{second}Z"


def near(schema):
    """Values around the borders of a schema, and of other types."""
    schema = resolved(schema)
    yield from (sample(schema), None, True, "true", 1, -1, 0, 1.5, 61.0, "", [], {}, "1")
    if schema["type"] == "string":
        yield from itertools.chain(schema.get("enum", []), changed(sample(schema)))
        yield from ("A" * length for length in (*range(20), 40, 41, 120, 121, 1000, 1001))
        yield from dates() if sample(schema).startswith("20") else ()
    if schema["type"] == "integer":
        for border in (schema["minimum"], schema["maximum"]):
            yield from (border - 1, border, border + 1, str(border))
    if schema["type"] == "array":
        names = [kcr.initials(number).decode() for number in range(65)]
        yield from (names[:length] for length in (1, 2, 31, 32, 33, 63, 64, 65))
        yield from (["AAAA", "AAAA"], ["aaaa"], ["A"], ["AAAA", 1], "AAAA", [["AAAA"]])


# The paths

def filled(path, **parts):
    """A path with a value in each of its braces: those that are given, else the examples."""
    for part in document()["paths"][path].get("parameters", []):
        part = resolved(part)
        path = path.replace("{%s}" % part["name"], str(parts.get(part["name"], sample(part["schema"]))))
    return path


def replies(program, requests):
    """The status, the head and the JSON of the answer to each request, over one empty register; of HEAD no JSON."""
    output, faults, status = call(program, "run", stream=b"".join(requests))
    expect("the end of the stream", (b"", 0), (faults, status))
    found = kcr.answers(output, requests)
    expect("how many answers", len(requests), len(found))
    for answer in found:
        head, _, body = answer.decode().partition("\r\n\r\n")
        yield int(head.split()[1]), head, json.loads(body) if body.startswith("{") else None


def same_paths(_):
    """docs/openapi.yaml and the headings of docs/API.md have the routes of the code, and no other."""
    routes = re.findall(r'\(\s*"(/[^"]*)",\s+\w', text_of("crates/kcr_wire/src/route.rt"))
    agree("the paths of the code", sorted(re.sub("{.*?}", "{}", route) for route in routes),
          sorted(re.sub("{.*?}", "{}", path) for path in document()["paths"]))
    for path, item in document()["paths"].items():
        names = [resolved(part)["name"] for part in item.get("parameters", [])]
        expect(f"the parameters of {path}", re.findall(r"{(\w+)}", path), names)
    headings = re.findall(r"(?m)^### (GET|POST) (/\S+)$", text_of("docs/API.md"))
    agree("the headings", sorted((method, path) for path, method, _ in operations() if method != "HEAD"),
          sorted(headings))


def same_methods(program, _):
    """Each path takes the methods of docs/openapi.yaml, and answers 405 and these to each other one."""
    paths = list(document()["paths"])
    requests = [kcr.request(method.encode(), filled(path).encode()) for path in paths for method in METHODS]
    found = replies(program, requests)
    for path in paths:
        taken = [method for method in METHODS if method.lower() in document()["paths"][path] and method != "get"]
        for method in METHODS:
            status, head, body = next(found)
            allow = re.search(r"\r\nallow: (.*?)\r\n", head + "\r\n")
            expect(f"{method} {path}: the line allow", None if method in taken else ", ".join(taken),
                   allow and allow[1])
            wanted_one = (400,) if method == "POST" else (200, 404)
            expect(f"{method} {path}: status {status}", True, status in (wanted_one if method in taken else (405,)))
            expect(f"{method} {path}: found", True, body is None or body.get("refusal") != "path")


def same_parts(program, _):
    """A path is known exactly where each of its parts fits its schema."""
    seen = set()
    for path, item in document()["paths"].items():
        method = b"GET" if "get" in item else b"POST"
        for part in map(resolved, item.get("parameters", [])):
            some = itertools.islice(near(part["schema"]), 13 if part["name"] in seen else None)
            values = [value for value in some if isinstance(value, (str, int)) and value is not True]
            seen.add(part["name"])
            targets = {filled(path, **{part["name"]: value}): value for value in values
                       if re.fullmatch(r"[!-.0->@-~]*", str(value))}
            requests = [kcr.request(method, target.encode()) for target in targets]
            for (target, value), (_, _, body) in zip(targets.items(), replies(program, requests)):
                known = body is None or body.get("refusal") != "path"
                expect(f"{target} is a path", is_part(part["schema"], str(value)), known)


def is_part(schema, text):
    """Whether a text is a part of a path with this schema; its numbers have no leading zeros."""
    if resolved(schema)["type"] == "integer":
        return re.fullmatch("0|[1-9][0-9]*", text) is not None and fits(schema, int(text))
    return fits(schema, text)


def tried(schema, seen):
    """Bodies around those of a schema, and of each the member that is wrong in it, or None. Of a member that was seen
    before with its schema only some values are tried."""
    numbers = itertools.count()
    whole = {name: sample(member) for name, member in schema["properties"].items()}
    yield {}, "key"
    yield whole | {"other": [1.5, None]}, None
    for name, member in schema["properties"].items():
        yield {other: value for other, value in whole.items() if other != name}, name
        known = (name, str(member)) in seen
        seen.add((name, str(member)))
        for value in itertools.islice(near(member), 12 if known else None):
            yield whole | {"key": f"n{next(numbers)}"} | {name: value}, None if fits(member, value) else name


def same_members(program, _):
    """A body is of its form exactly where it fits its schema, and else the first member that does not is named."""
    seen = set()
    for path, method, operation in operations():
        if method == "POST":
            schema = resolved(schema_in(operation["requestBody"]))
            bodies = list(tried(schema, seen))
            requests = [kcr.request(b"POST", filled(path).encode(), json.dumps(body, ensure_ascii=False).encode())
                        for body, _ in bodies]
            expect(f"POST {path} wants each member", list(schema["properties"]), schema["required"])
            for (body, wrong), (_, _, reply) in zip(bodies, replies(program, requests)):
                expect(f"POST {path} {body!r:.300}: the member that is wrong", wrong, reply.get("member"))


def operation_of(method, target):
    """The path that a request is for, and what the document says of it with this method, or None."""
    for path, own, operation in operations():
        if own == method and re.fullmatch(re.sub("{.*?}", "[^/]+", path), target.partition("?")[0]):
            return path, operation
    return None, None


def same_bodies(_):
    """The examples of docs/API.md fit the schemas of docs/openapi.yaml, and each path has one that is done."""
    done = set()
    for example in examples_of("docs/API.md"):
        messages = requests_of(example)
        answers = parted(example.answers.get("answer", ""), map(method_of, messages))
        finals = [answer for answer in answers if not answer[0].startswith(b"HTTP/1.1 100 ")]
        for message, (head, body) in zip(messages, finals):
            expect(f"{example.name}: what is wrong", None, unlike(message, head.decode(), body.decode()))
            if head.startswith(b"HTTP/1.1 200 "):
                method, target, _ = message.decode().split(" ", 2)
                done.add((operation_of(method, target)[0], method))
    agree("the examples that are done", sorted((path, method) for path, method, _ in operations() if method != "HEAD"),
          sorted(pair for pair in done if pair[1] != "HEAD"))


def unlike(message, head, body):
    """What a request and its answer have that the document does not say, or None."""
    method, target, _ = message.split(b"\r\n")[0].decode().split(" ")
    status, kind = head.split(" ")[1], re.search("content-type: (.*)\r", head)[1]
    _, operation = operation_of(method, target)
    if operation is None:
        return None if status in ("404", "405") else f"{status} without an operation"
    if status == "200" and method == "POST":
        if not fits(schema_in(operation["requestBody"]), json.loads(message.partition(b"\r\n\r\n")[2])):
            return "a body that does not fit"
    if status not in operation["responses"]:
        return None if status == "404" and '"path"' in body else f"the status {status}"
    response = resolved(operation["responses"][status])
    if method == "HEAD":
        return None if body == "" else "a body"
    if kind not in response["content"]:
        return f"the type {kind}"
    schema = response["content"][kind]["schema"]
    return None if fits(schema, json.loads(body) if "json" in kind else body) else f"the answer {body!r:.300}"


def texts_fit(_):
    """The SQL texts of commands, questions and reports are as many as docs/COST.md says; with those that begin and end
    a transaction they fit among the plans that the connection keeps, so none is made twice. Only an opening, an audit
    or a verification reads all rows of the tables in NEVER_WHOLE, and only an empty register gets rows of safes and of
    the version."""
    whole = re.compile(rf"SELECT [^?]* FROM ({'|'.join(NEVER_WHOLE)}) ORDER BY [^?]*(?<!LIMIT 1)$"
                       r"|INSERT INTO (safes|versions) ")
    texts = {text for crate in ("kcr_tables", "kcr_reading") for file in (ROOT / "crates" / crate / "src").glob("*.rt")
             for text in re.findall(r'"((?:SELECT|INSERT|UPDATE) (?:\\"|[^"])*)"', file.read_text(encoding="utf-8"))
             if not whole.match(text)}
    told = re.search(r"(\d+) SQL texts", text_of("docs/COST.md"))
    expect("the number of texts", int(told[1]), len(texts))
    expect("whether they fit", True, len(texts) + BEGIN_AND_COMMIT <= PLANS_KEPT)


# Counts and lists

COUNTED = ("no one two three four five six seven eight nine ten eleven twelve thirteen fourteen fifteen sixteen "
           "seventeen eighteen nineteen twenty").split()


def numbers_in(page, words):
    """The numbers that stand in a sentence of a page, for which `words` has a group each."""
    found = re.search(words, text_of(page))
    if not found:
        raise Wrong(f"{page} does not have {words!r}")
    return [COUNTED.index(text) if text in COUNTED else int(text.replace(",", "")) for text in found.groups()]


def crates():
    """The crates of crates.txt."""
    return sorted(re.findall(r"(?m)^(\w+)", text_of("crates.txt")))


def things():
    """Each count of a page: the page, the words around it, and the numbers that are right."""
    reads = [schema_in(operation["responses"]["200"]) is not None for _, method, operation in operations()
             if method == "GET"]
    commands = sum(method == "POST" for _, method, _ in operations())
    requests = len(kcr.messages((ROOT / "examples/ceremony.http").read_bytes()))
    audits = re.search(r"\((\d+), \1\), \(len\(TAMPERINGS\)", text_of("tests/audit.py"))
    yield "README.md", r"the (\d+) refusals in", [len(refusals())]
    yield ("CHANGELOG.md", r"(\w+) commands, (\w+) questions, (\w+) reports, and the accepted commands",
           [commands, sum(reads), len(reads) - sum(reads) - 1])
    of_history = len(kcr.TABLES) - 1  # all but `versions`
    yield "docs/MAP.md", r"the (\w+) tables, read and changed", [of_history]
    yield "docs/DEFINITIONS.md", r"the rows of (\w+) tables", [of_history]
    yield "docs/AUDIT.md", r"does (\d+) things", [int(audits[1])]
    yield "docs/TESTS.md", r"the (\d+) changes of", [int(audits[1])]
    yield "docs/AUDIT.md", r"in some (\d+) lines of Python", [round(len(text_of("tools/check.py").splitlines()), -1)]
    yield "docs/EXAMPLE.md", r"the script, (\d+) steps", [len(text_of("examples/ceremony.csv").splitlines()) - 1]
    yield "docs/EXAMPLE.md", r"(\d+) requests as one stream", [requests]
    yield "docs/TESTS.md", r"(\d+) registers \(`tests/files`\)", [len(list((ROOT / "tests/files").iterdir()))]


def counted(_):
    """Each number of things that a page counts is right, and the tables of docs/GATE.md have their sums."""
    for page, words, wanted_ones in things():
        expect(f"{page}: {words}", wanted_ones, numbers_in(page, words))
    for part in text_of("docs/GATE.md").split("\n## Functions"):
        rows = [[float(cell.replace(",", "").strip() or 0) for cell in row.split("|")[1:-1]]
                for row in re.findall(r"(?m)^\| (?:kcr_\w+|all crates|together) (\|.*)$", part)]
        expect("the sums", [round(sum(column), 1) for column in zip(*rows[:-1])], rows[-1])


def complete(_):
    """The lists of crates have those of crates.txt, and docs/TESTS.md has each script that `tests/all` runs."""
    for page, form in (("README.md", "Its crates .*"), ("docs/MAP.md", r"(?s)\n## Crates\n.*?\n\nIn each crate")):
        found = re.findall(r"`(kcr_\w+)`", re.search(form, text_of(page))[0])
        expect(f"the crates of {page}", crates(), sorted(set(found)))
    for part in text_of("docs/GATE.md").split("\n## Functions"):
        expect("the crates of a table of docs/GATE.md", crates(), sorted(re.findall(r"(?m)^\| (kcr_\w+) ", part)))
    page = text_of("docs/TESTS.md")
    for name in set(re.findall(r'"(\w+\.(?:py|sh))', text_of("tests/all"))):
        expect(f"whether docs/TESTS.md has {name}", True, f"tests/{name}" in page)


def there(_):
    """Each file that docs/MAP.md names is there, and so are the mutants of docs/PROVED.md, and the cases that catch a mutant
    too."""
    files = {path.relative_to(ROOT / "crates").as_posix() for kind in ("rt", "antt", "edit")
             for path in (ROOT / "crates").glob(f"*/[!o]*/**/*.{kind}")}
    form = r"`(?:kcr_\w+/)?([a-z]\w*(?:/\w+)*\.rt|specs/\w+\.antt|proofs/\w+\.antt)`"
    for name in re.findall(form, text_of("docs/MAP.md")):
        expect(f"whether {name} of docs/MAP.md is there", True, any(file.endswith(f"/{name}") for file in files))
    for names in re.findall(r"\[(`kcr_.*?)\]", text_of("docs/PROVED.md")):
        for crate, name in re.findall(r"`(kcr_\w+)/(\w+)`", names):
            expect(f"whether the mutant {crate}/{name} is there", True, f"{crate}/must-fail/{name}.edit" in files)
    pages = [page.read_text(encoding="utf-8") for page in (ROOT / "crates").glob("*/must-fail/README.md")]
    caught = " ".join(re.findall(r"(?m) Also caught by (.*)$", "\n".join(pages)))
    cases = {path.stem for path in (HERE / "cases").glob("*/*")}
    for name in set(re.findall(r"`([a-z]+(?:-(?:[a-z0-9*]|\.(?=\d))+)+)`", caught)):
        expect(f"whether the case {name} is there", True, bool(fnmatch.filter(cases, name)))


# Commands without a mark

def played(program, room):
    """The commands of docs/EXAMPLE.md run as printed, each block with a new file; only the port differs."""
    if not all(kcr.is_here(name, "docs/EXAMPLE.md") for name in ("sqlite3", "curl")):
        return
    blocks = re.findall(r"(?ms)^```sh\n(.*?)^```$", text_of("docs/EXAMPLE.md"))
    expect("how many blocks", 2, len(blocks))
    (room / "kcr").symlink_to(program)
    for number, (text, last) in enumerate(zip(blocks, ("queries.txt", "ceremony.answers.txt"))):
        folder = room / str(number)
        folder.mkdir()
        (folder / "examples").symlink_to(ROOT / "examples")
        words = text.replace("8053", str(kcr.free_port())) + ("kill $!\n" if " &\n" in text else "")
        run = subprocess.run(["sh", "-euc", words], cwd=folder, capture_output=True, timeout=SECONDS,
                             env={**os.environ, "PATH": f"{room}:{os.environ['PATH']}"})
        expect("the end", (b"", 0), (run.stderr, run.returncode))
        expect("the last lines", True, run.stdout.endswith((ROOT / "examples" / last).read_bytes()))


def called(program, room):
    """The line of README.md that calls the built program `kcr` does so."""
    line, place = re.search(r"`(program=\$PWD/(\S+);.*?)` calls", text_of("README.md")).groups()
    (room / place).parent.mkdir(parents=True)
    (room / place).symlink_to(program)
    run = subprocess.run(["sh", "-c", f"{line}\ncd /\nkcr --version"], cwd=room, capture_output=True, text=True,
                         timeout=SECONDS)
    expect("what it prints", "kcr ", (run.stdout + run.stderr)[:4])


def short(_):
    """README.md has fewer than 110 lines, and links to files that are there."""
    text = text_of("README.md")
    expect("fewer than 110 lines", True, len(text.splitlines()) < 110)
    for link in re.findall(r"\]\(([^)#:]+)", text):
        expect(f"{link} is there", True, (ROOT / link).is_file())


def brief(_):
    """README.md and the pages of `docs`, but for docs/STATEMENT.md, have fewer than 23,000 words together, examples
    included. A word has a letter, and blanks around it."""
    pages = [ROOT / "README.md", *(page for page in (ROOT / "docs").glob("*.md") if page.name != "STATEMENT.md")]
    count = sum(len(re.findall(r"\S*[A-Za-z]\S*", page.read_text(encoding="utf-8"))) for page in pages)
    expect(f"whether {count} words are fewer than {MOST_WORDS}", True, count < MOST_WORDS)


def tests(program):
    """Each test: its name, what it shows, and the call that takes an empty folder."""
    for page in ("docs/API.md", "docs/AUDIT.md", "README.md"):
        yield from examples(program, page)
    for test in (tabled, decided, named, worded, lined, complete, there, short, brief):
        yield test.__name__, test.__doc__, test
    for test in (played, called):
        yield test.__name__, test.__doc__, functools.partial(test, program)
    if not yaml:
        kcr.leave_out("PyYAML", "docs/openapi.yaml")
        return
    for test in (described, listed, counted, same_paths, same_bodies, texts_fit):
        yield test.__name__, test.__doc__, test
    for test in (same_methods, same_parts, same_members):
        yield test.__name__, test.__doc__, functools.partial(test, program)


def plain(test, room):
    """Runs a test; where a look-up finds nothing, that is a failure like any other."""
    try:
        test(room)
    except (LookupError, AttributeError, TypeError) as fault:
        raise Wrong(f"{type(fault).__name__}: {fault}") from fault


def main():
    if len(sys.argv) < 2:
        sys.exit(__doc__)
    program, wanted_ones = str(pathlib.Path(sys.argv[1]).resolve()), sys.argv[2:]
    kcr.judge([(name, shows, functools.partial(plain, test)) for name, shows, test in tests(program)
               if not wanted_ones or name in wanted_ones])


if __name__ == "__main__":
    main()
