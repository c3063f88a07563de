"""Writes the module of a table."""
import re

from table_list import TABLES
from table_writer import ROWS_CRATE, write, rust_text


# the kinds of values by which rows are found, as the trait `AsCell` has them
KEY_TYPES = {"&Initials": "Initials", "&Serial": "Serial", "&ItemCode": "ItemCode", "&Key": "Key", "u32": "u32"}


def types_by_crate(tables):
    """The types of the rows of these tables, by their crates."""
    types = {}
    for t in tables:
        types.setdefault(t.crate, set()).add(t.type)
    return types


def text_method(name, text):
    return f"    fn {name}() -> &'static str {{\n        {rust_text(text)}\n    }}\n\n"


def member(name, term):
    return f"    ghost {name} = {{ {term} }};\n\n"


def impl(trait, t, body):
    return f"impl {trait} for {t.type} {{\n{body.rstrip()}\n}}\n\n"


def put_source(t):
    """How a row is put: by these texts, with the cells of its row as their parameters."""
    lead, cells = ("alloc: Global, ", "self.cells_allocating(alloc)?") if t.needs_alloc else ("", "self.cells()")
    update, insert = rust_text(t.update_text()), rust_text(t.insert_text())
    put = f"update_or_insert_row(tx, self, {update}, insert, &cells)" if t.may_change else "insert_row(tx, self, insert, &cells)"
    if t.new_where:
        put = f"if {t.new_where} {{ insert_row(tx, self, insert, &cells) }} else {{ {put} }}"
    return f"    fn {t.put}<S: Alter>(&self, {lead}tx: &mut Transaction<'_, S>) -> Result<(), Refusal> {{\n        let cells = {cells};\n        let insert = {insert};\n        {put}\n    }}\n"


def put_calls(t):
    """The calls that put a row by these texts."""
    return ["insert_row"] * bool(t.new_where or not t.may_change) + ["update_or_insert_row"] * t.may_change


def source(t):
    found = t.readings
    body = member("table", "laws.table") + text_method("select_all_sql", t.select_all_sql()) + member("table_laws", "laws.table_laws")
    out = impl("TableRow", t, body)
    for r in found:
        p = r.prefix
        body = member("lookup_spec", f"laws.{p}") + text_method("lookup_sql", t.text_of(r)) + member("lookup_laws", f"laws.{p}_laws")
        out += f"/// {r.doc}.\n" + impl(f"LookupBy<{KEY_TYPES[r.ty]}>", t, body)
    names = ["inserts"] + ["updates"] * t.may_change
    lemmas = f"    #[tactic(auto, using({', '.join(f'crate::specs::{t.laws}::{name}' for name in names)}))]\n"
    out += impl("PutAllocating" if t.needs_alloc else "Put", t, lemmas + put_source(t))
    keys = {KEY_TYPES[r.ty] for r in found}
    base = sorted(keys & {"Initials", "Serial", "ItemCode", "Key"} | {"Refusal"})
    named = re.findall(r"\b(\w+)::", t.new_where or "")
    table = ["TableRow", "PutAllocating" if t.needs_alloc else "Put"] + ["LookupBy"] * bool(found) + put_calls(t)
    imports = [
        f"use crate::table::{{{', '.join(sorted(table, key=lambda n: (n[0].islower(), n)))}}};",
        f"use kcr_base::{{{', '.join(base)}}};",
        f"use {t.crate}::{{{', '.join([t.type, *named])}}};" if named else f"use {t.crate}::{t.type};",
        f"use kcr_rows::to_row::{'ToRowAllocating' if t.needs_alloc else 'ToRow'};",
        "use sqlite::{Alter, Transaction};",
        "use std::alloc::Global;" if t.needs_alloc else "",
    ]
    head = f"//! The table {t.name}: {t.doc}.\n\nghost use Rattle.kcr_tables.specs.{t.laws} as laws;\n\n" + "\n".join(i for i in imports if i) + "\n\n"
    write(f"src/{t.name}.rt", head + out.rstrip() + "\n")


def source_texts():
    out = """//! The texts that make the tables.

ghost use Rattle.std.specs.Prelude.{◌≡◌, ◌<◌};
ghost use Rattle.kcr_tables.specs.Creation.{text_at};

"""
    out += f"/// How many tables there are.\npub const TABLE_COUNT: usize = {len(TABLES)};\n\n"
    out += f"/// The text that makes the table of this position, counted from 0.\npub fn create_table_sql(at: usize) -> &'static str\n    requires {{ at < {len(TABLES)} }}\n    ensures {{ result.now ≡ text_at at }}\n{{\n    match at {{\n"
    for t in TABLES[:-1]:
        out += f"        {t.at} => {rust_text(t.create_table_sql())},\n"
    out += f"        _ => {rust_text(TABLES[-1].create_table_sql())},\n    }}\n}}\n"
    write("src/create_sql.rt", out)


VERSION = """/// The number of a schema, by which a later program knows which tables a file has.
#[derive(Clone, Copy, PartialEq, Eq, Drop)]
pub struct Version {
    pub number: u32,
}

"""


def read_back(t):
    """How the value of a row is read back."""
    alloc = "alloc" if any("alloc" in (c.kind.read or "") for c in t.columns) else "_alloc"
    read = [(i, c) for i, c in enumerate(t.columns) if c.kind.read]
    lines = "".join(f"        let {c.field} = {c.kind.read.format(at=i)};\n" for i, c in read)
    return f"""impl FromRow for {t.type} {{
    ghost row_of = {{ {t.row_of} }};

    ghost is_read = {{ {t.is_read or 'λ _. ⊤'} }};

    fn from_row({alloc}: Global, row: &Row) -> Result<{t.type}, Refusal> {{
        if row.column_count() != {len(t.columns)} {{
            return Err(Refusal::Disk);
        }}
{lines}        Ok({t.type} {{ {', '.join(c.field for _, c in read)} }})
    }}
}}
"""


def cells(t):
    """What the cells of its columns are, and the cells of a value's row, six with the NULLs behind them."""
    of_columns = [c.kind.write.format(x=f"self.{c.field}") for c in t.columns]
    listed = f"[{', '.join(of_columns + ['Cell::Null'] * (6 - len(of_columns)))}]"
    told = f"    ghost is_told = {{ {t.is_stored} }};\n\n" if t.needs_alloc else ""
    call = f"cells_allocating(&self, alloc: Global) -> Result<Cells<'_>, Refusal> {{ Ok({listed}) }}" if t.needs_alloc else f"cells(&self) -> Cells<'_> {{ {listed} }}"
    return f"""
impl Columns for {t.type} {{
    ghost kinds = {{ {t.row}_kinds }};

    fn kinds() -> &'static [Kind] {{
        &[{', '.join(f'Kind::{c.kind.variant}' for c in t.columns)}]
    }}
}}

impl {'ToRowAllocating' if t.needs_alloc else 'ToRow'} for {t.type} {{
{told}    fn {call}
}}
"""


def source_rows():
    out = """//! The rows of the tables as values: how each is read back, what its cells are, and what the cells of its columns are.

ghost use Rattle.std.specs.Prelude.{⊤};
"""
    for at in range(0, len(TABLES), 6):
        out += f"ghost use Rattle.kcr_rows.specs.Kinds.{{{', '.join(t.row + '_kinds' for t in TABLES[at : at + 6])}}};\n"
        out += f"ghost use Rattle.kcr_rows.specs.Rows.{{{', '.join(t.row_of for t in TABLES[at : at + 6])}}};\n"
    facts = dict.fromkeys(fact for t in TABLES for fact in (t.is_read, t.is_stored) if fact)
    out += f"ghost use Rattle.kcr_rows.specs.States.{{{', '.join(facts)}}};\n\n"
    columns = [c.kind for t in TABLES for c in t.columns]
    readers = {kind.reader() for kind in columns if kind.read}
    kinds = {name for kind in columns for name in kind.counted()}
    own = sorted(kinds & {"OfSeat", "OfException", "OfCommand"})
    types = types_by_crate(t for t in TABLES if t.crate != ROWS_CRATE)
    types |= {"kcr_base": {"Refusal"}, "kcr_base::number": kinds - set(own)}
    writers = {kind.cell() for kind in columns} | {"Cells", "Columns", "ToRow", "ToRowAllocating"}
    imports = [f"use crate::cells::{{{', '.join(sorted(readers))}}};", "use crate::from_row::FromRow;", "use crate::kinds::Kind;", f"use crate::numbers::{{{', '.join(own)}}};", f"use crate::to_row::{{{', '.join(sorted(writers))}}};"]
    imports += [f"use {crate}::{{{', '.join(sorted(types[crate]))}}};" for crate in sorted(types)]
    imports += ["use sqlite::Row;", "use std::alloc::Global;"]
    out += "\n".join(imports) + "\n\n" + "\n".join((VERSION if t.name == "versions" else "") + read_back(t) + cells(t) for t in TABLES)
    write("src/row_impls.rt", out, ROWS_CRATE)
