"""Follows the names of the statement from the contracts to the definitions, and to the names of the kit."""
import glob
import re

from statement_read import Stop, ghost_imports, read_antt, read_rust

WORDS = "abbrev pub unfoldable record data where let in elim as if then else Type use open".split()
ACTS = ".specs.declared.commands.Act.TheVariants"
TOKEN = re.compile(r'"(?:[^"\\]|\\.)*"|[^\s(){}\[\];,"]+')


class Library:
    """All sources of the crates, by path."""

    def __init__(self):
        self.sources = {}  # by path, in the order of the paths
        for path in sorted(glob.glob("crates/*/specs/**/*.antt", recursive=True)):
            self.read(path, read_antt)
        for path in sorted(glob.glob("crates/*/src/**/*.rt", recursive=True)):
            self.read(path, read_rust)

    def read(self, path, reader):
        with open(path, encoding="utf-8") as file:
            self.sources[path] = reader(path, file.read())
        return self.sources[path]

    def source(self, path):
        if path not in self.sources:
            raise Stop(f"there is no file {path}")
        return self.sources[path]

    def file_of(self, module):
        """The source of a module of our crates in antt's spelling, or None."""
        parts = module.split(".")
        if parts[0] != "Rattle" or not parts[1].startswith("kcr_"):
            return None
        path = "crates/" + "/".join(parts[1:]) + ".antt"
        if path not in self.sources and parts[2] == "proofs":
            self.read(path, read_antt)
        return self.sources.get(path)

    def lacks(self, module, name):
        """Whether a module certainly lacks a name: all of it was read, and it hands no such name on from proofs."""
        source = self.file_of(module) if ".declared." not in module else None
        return source is None or source.is_whole and all(other != name for other, _, _ in source.exports)

    def find(self, module, name):
        """What a module of our crates calls by a name, or None if it has no such name."""
        if ".specs.declared." in module:
            return self.declared(module, name)
        source = self.file_of(module)
        if source is None:
            return None
        if name in source.items or name in source.constructors:
            return source.items.get(name) or source.constructors[name]
        for other, place, there in source.exports:
            if other == name:
                return self.find(place, there) if place.startswith("Rattle.kcr_") else (place.split(".")[1], there)
        return None

    def declared(self, module, name):
        """A type of Rust, or the one that a variant is of."""
        crate, path = re.match(r"Rattle\.(\w+)\.specs\.declared\.(.*)", module).groups()
        parts = [p.strip("«»") for p in path.split(".")]
        if parts[-1] == "TheConstants":
            parts[-1] = name
        while parts[-1].startswith("The"):
            parts.pop()
        place = "/".join(parts[:-1]) or "lib"
        source = self.sources.get(f"crates/{crate}/src/{place}.rt")
        return source and source.items.get(parts[-1])

    def model_of(self, item):
        """The model of a struct, or of the struct that an alias names, or None."""
        if item.kind == "alias":
            base = re.search(r"= (\w+)", item.text())
            if base is None:  # a tuple, whose parts have models of their own
                return None
            source = self.sources[item.path]
            item = source.items.get(base[1]) or self.rust(item.path.split("/")[1], source.rust.get(base[1], ""))
        return item and self.sources[item.path].models.get(item.name)

    def rust(self, crate, path):
        """A type of Rust by its path, from a file of the crate, or None if it is the kit's."""
        parts = path.split("::")
        if parts[0] == "crate":
            parts[0] = crate
        if not parts[0].startswith("kcr_"):
            return None
        crate, place = parts[0], "/".join(parts[1:-1]) or "lib"
        source = self.sources.get(f"crates/{crate}/src/{place}.rt")
        if source is None:
            return None
        if parts[-1] in source.items:
            return source.items[parts[-1]]
        there = source.rust.get(parts[-1])
        if there is None or there == path:
            return None
        if not there.startswith(("crate::", "kcr_")):
            inner = f"crates/{crate}/src/{there.split('::')[0]}.rt"
            if inner not in self.sources:
                return None
            there = f"{crate}::{there}"
        return self.rust(crate, there)


def bound_names(text):
    """The names that a piece of antt binds: by lambdas, arrows, `let` and `elim`."""
    bound = set()
    for found in re.finditer(r"λ\s+(.*?)\.(?=\s|$)", text, re.S):
        bound.update(re.findall(r"[^\s(),]+", found[1]))
    for found in re.finditer(r"[({]\s*([^(){}:=;]+?)\s+:\s", text):
        bound.update(found[1].split())
    for found in re.finditer(r"\blet\s+(.*?)\s[:=]\s", text, re.S):
        bound.update(re.findall(r"[^\s(),]+", found[1]))
    return bound


def without_labels(text):
    """The text without the labels of its records."""
    return re.sub(r"(?<=[{;])\s*[\w']+\s*=(?=\s)", " ", text)


def words_of(text):
    """The names of a piece of antt, each with the name behind its first dot."""
    for word in TOKEN.findall(text):
        if word[0] == '"' or word in WORDS:
            continue
        parts = word.rstrip(".").split(".")
        if parts[0]:
            yield parts[0], parts[1] if len(parts) > 1 else None


def clauses_of(item):
    """The signature of a definition, and its cases."""
    parts = [[]]
    for line in item.lines:
        if parts[0] and not line[0].isspace():
            parts.append([])
        parts[-1].append(line)
    whole = ["\n".join(part) for part in parts]
    return whole[0], whole[1:]


class Names:
    """What the antt of one file names: items of ours, and names of the kit as (crate, name)."""

    def __init__(self, library, source, imports=None, taken=None):
        self.library = library
        self.source = source
        self.imports = {**source.imports, **(imports or {})}
        self.taken = taken  # the acts whose cases are followed, or None for all

    def meaning(self, base, member=None):
        """The item or the kit's name that a word stands for, or None if it is a variable or antt's own."""
        operator = f"◌{base}◌"
        if operator in self.imports:
            base = operator
        if base in self.imports:
            module, name = self.imports[base]
            if name or member:
                return self.imported(module, name or member)
            return None
        if base in self.source.items or base in self.source.constructors:
            return self.source.items.get(base) or self.source.constructors[base]
        rust = self.source.rust.get(base)
        if rust:
            return self.library.rust(self.source.path.split("/")[1], rust) or (rust.split("::")[0], base)
        return None

    def imported(self, module, name):
        if not module.startswith("Rattle.kcr_"):
            return (module.split(".")[1], name)
        if ".specs.contracts." in module:
            return None
        found = self.library.find(module, name)
        if found is None and self.library.lacks(module, name):
            raise Stop(f"{self.source.path} names `{name}` of {module}, which is not found there")
        return found

    def of_piece(self, text, bound=()):
        """The meanings of the words of a piece of antt in which some names are bound."""
        text = without_labels(re.sub(r"(--|//).*", "", text))
        bound = bound_names(text).union(bound)
        words = (word for word in words_of(text) if word[0] not in bound)
        return [found for found in (self.meaning(*word) for word in words) if found]

    def of_item(self, item):
        """All that a definition of antt names."""
        return self.of_clauses(item) if item.kind == "definition" else self.of_fields(item)

    def of_fields(self, item):
        """A record or data: a field's name is bound in the fields below it."""
        head, _, body = item.text().partition(" where\n")
        bound = bound_names(head)
        found = self.of_piece(head.partition(":")[2])
        for field in re.split(r"\n  (?=\S)", "\n" + body):
            name = re.match(r"(?:pub )?(\S+) :", field)
            if name:
                found += self.of_piece(field[name.end():], bound)
                if item.kind == "record":
                    bound = bound | {name[1]}
        return found

    def of_clauses(self, item):
        """A definition by cases: the variables of a pattern are bound in its case."""
        signature, clauses = clauses_of(item)
        found = self.of_piece(signature.partition(" :")[2])
        for clause in clauses:
            left, _, right = clause.partition(" =")
            words = list(words_of(re.sub(r"[{}]", " ", left)))[1:]
            if self.taken is not None and not self.taken.issuperset(filter(None, map(self.act, words))):
                continue
            constructors = [word for word in words if self.is_constructor(word)]
            found += [self.meaning(*word) for word in constructors]
            found += self.of_piece(right, {word[0] for word in words if word not in constructors})
        return found

    def is_constructor(self, word):
        """Whether a word of a pattern is a constructor, and not a variable that has the name of a definition."""
        found = self.meaning(*word)
        return isinstance(found, tuple) or (found is not None and found.kind != "definition")

    def act(self, word):
        """The kind of act that a word stands for, or None."""
        module, name = self.imports.get(word[0], ("", None))
        return (name or word[1]) if module.endswith(ACTS) else None

    def of_rust(self, item):
        """What a type of Rust names, as clauses see it: by the value of its model, if it has one."""
        model = self.library.model_of(item)
        if model:
            return Names(self.library, self.source, model.imports).of_piece(model.value)
        if item.kind == "alias":
            return []
        text = re.sub(r"//.*", "", item.text()).partition(item.name)[2]
        text = re.sub(r"^    (?! )(pub(\(\w+\))? )?\w+", "", text, flags=re.M)  # names of fields and variants
        words = re.findall(r"[A-Za-z_]\w*", text)
        found = [self.meaning(word) for word in words]
        return [x for x in found if x and x is not item and not isinstance(x, tuple)]


def acts_named(library, source, text, homes):
    """The kinds of act that a lemma names, with the definitions of some crates that it names."""
    names = Names(library, source)
    texts = [(names, text)]
    texts += [(Names(library, library.sources[item.path]), item.text())
              for item in Reach(library, names.of_piece(text), set()).items.values() if item.path.startswith(homes)]
    return {names.act(word) for names, text in texts for word in words_of(text)} - {None}


class Reach:
    """Some items and names, and all that these name in turn; of cases by act those of some acts, or all."""

    def __init__(self, library, named, taken=None):
        self.items = {}  # by key
        self.kit = set()  # (crate, name)
        self.distance = {}  # how many names lead to an item
        work = []
        self.take(named, 1, work)
        while work:
            item = work.pop(0)
            names = Names(library, library.sources[item.path], taken=taken)
            found = names.of_rust(item) if item.path.endswith(".rt") else names.of_item(item)
            self.take(found, self.distance[item.key()] + 1, work)

    def take(self, found, distance, work):
        for each in found:
            if isinstance(each, tuple):
                self.kit.add(each)
            elif each.key() not in self.items:
                self.items[each.key()] = each
                self.distance[each.key()] = distance
                work.append(each)


def contract_names(library, contract):
    """What the signature and the clauses of a contract name, and the members of the bounds of its type parameters."""
    names = Names(library, contract.source, contract.imports)
    found = [names.meaning(word) for word in re.findall(r"[A-Za-z_]\w*", contract.signature)]
    found = [x for x in found if x]
    for clause in contract.clauses:
        found += names.of_piece(clause.text[clause.text.index("{") + 1:-1])
        for parameter, member in re.findall(r"\b([A-Z])\.(\w+)", clause.text):
            bound = contract.bounds.get(parameter)
            if bound:
                found.append((contract.source.rust.get(bound, bound).split("::")[0], f"{bound}.{member}"))
    return found


def cited(library):
    """What the clauses of all functions name."""
    found = []
    for path, source in list(library.sources.items()):
        if path.endswith(".rt"):
            words = sorted(set(words_of(re.sub(r"//.*|ghost use [^;]*;", "", source.text))), key=str)
            for use in re.findall(r"\bghost use [^;]*;", source.text):
                imports = ghost_imports(use)
                names = Names(library, source, imports)
                found += [names.meaning(*word) for word in words if imports.keys() & {word[0], f"◌{word[0]}◌"}]
    return [each for each in found if each]


def lemmas(library, path):
    """The public lemmas of a file in `proofs/`, also those that it hands on: each with its file, its name and its
    statement."""
    source = library.sources.get(path) or library.read(path, read_antt)
    items = [(source, item) for item in source.items.values() if item.lines[0].startswith("pub ")]
    for _, module, name in source.exports:
        there = library.file_of(module)
        items.append((there, there.items[name]))
    for there, item in items:
        proof = [n for n, line in enumerate(item.lines) if n and line.startswith(item.name)]
        yield there, item.name, " ".join(item.lines[:proof[0] if proof else None]).split(" : ", 1)[1]


def in_laws(library, examples):
    """What laws and examples name: the lemmas in `proofs/Laws.antt`, those that docs/PROVED.md names, and the examples."""
    wanted = {path: None for path in [*sorted(glob.glob("crates/*/proofs/Laws.antt")), *examples]}
    with open("docs/PROVED.md", encoding="utf-8") as file:
        for crate, module, names in re.findall(r"`(kcr_\w+)/proofs/(\w+)`: ((?:`[\w-]+`(?:, )?)+)", file.read()):
            named = wanted.setdefault(f"crates/{crate}/proofs/{module}.antt", set())
            if named is not None:
                named.update(re.findall(r"[\w-]+", names))
    found = []
    for path, names in wanted.items():
        there = {name: (source, text) for source, name, text in lemmas(library, path)}
        lacking = sorted((names or set()) - there.keys())
        if lacking:
            raise Stop(f"docs/PROVED.md names {', '.join(lacking)}, which {path} has not")
        for name in there if names is None else sorted(names):
            source, text = there[name]
            found += Names(library, source).of_piece(text)
    return found


def used_by_tactics(library):
    """The laws in `specs/` that functions name for the tactics of their proofs."""
    found = []
    for path, source in list(library.sources.items()):
        for used in re.findall(r"\busing\(([^)]*)\)", source.text) if path.endswith(".rt") else []:
            for module, law in re.findall(r"\bspecs::([\w:]+)::([\w-]+)", used):
                there = library.sources.get("/".join(path.split("/")[:2] + ["specs"] + module.split("::")) + ".antt")
                found.append(there and there.items.get(law))
    return [each for each in found if each]
