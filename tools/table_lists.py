"""Writes what lists all tables inside files that are edited by hand: between a line that begins such a list and one that
ends it."""
import os

from table_layout import DEFINITIONS, laid_out
from table_list import MACHINE, TABLES
from table_writer import codes, listed

BEGIN = "begin: written by tools/tables.py"
END = "end: written by tools/tables.py"
BY_NAME = {t.name: t for t in TABLES}
LISTED = [BY_NAME[name] for name in MACHINE]  # the machine's tables, in its order
BESIDE = ("sheet", "keys")  # those that a full view has beside a view, since decisions read neither by it
# where a table of the machine is not the definition of its own name
HISTORIES = {"sheet": "reverse (sheet A)", "stays": "reverse (stays_by (sheet A))"}
# the rows that no derive compares
BY_HAND = ("steps", "exceptions", "keys")


def fill(path, *lists):
    """Puts the lists in the place of those that stand in the file, in their order."""
    path = os.path.join("crates", path)
    sign = "//" if path.endswith(".rt") else "--"
    with open(path) as f:
        pieces = f.read().split(f"{sign} {BEGIN}\n")
    assert len(pieces) == len(lists) + 1, path
    text = pieces[0]
    for piece, part in zip(pieces[1:], lists):
        behind = piece.split(f"{sign} {END}\n")[1]
        text += f"{sign} {BEGIN}\n\n{part.strip()}\n\n{sign} {END}\n{behind}"
    with open(path, "w") as f:
        f.write(text)


def equation(left, right):
    """A case of a definition, on two lines where one is too long."""
    return f"{left} = {right}\n" if len(left) + len(right) + 3 <= DEFINITIONS else f"{left} =\n    {right}\n"


def variant(t):
    return "".join(part.capitalize() for part in t.name.split("_"))


def of_view(t, view):
    """The rows of the table in a view of all rows."""
    return f"{view}.{t.name}" if t.name in BESIDE else f"{view}.view.{t.name}"


def views():
    asked = [t for t in LISTED if t.name not in BESIDE]
    view = """/// Rows of the tables that decisions read, one list for each table, each in any order, and how many stays a ceremony
/// has.
#[derive(Drop)]
pub struct View {
"""
    for t in asked:
        view += f"    pub {t.name}: Vec<{t.type}>,\n"
        if t.name == "stays":
            view += "    /// How many stays the ceremony has of which that is asked, 0 if it is asked of none.\n    pub stay_count: usize,\n"
    view += """}

/// All rows of the register's tables, one list for each table, each in any order.
#[derive(Drop)]
pub struct FullView {
    /// Those of the tables that a decision may ask for.
    pub view: View,
"""
    view += "".join(f"    pub {name}: Vec<{BY_NAME[name].type}>,\n" for name in BESIDE) + "}\n"
    change = """/// A whole row that is put into its table, new or in place of the row that has its key. No row is ever removed.
#[derive(Drop)]
pub enum Change {
"""
    change += "".join(f"    {t.change}({t.type}),\n" for t in LISTED) + "}\n"
    fill("kcr_history/src/views.rt", view, change)


def history():
    out = "pub record Tables : Type 0 where\n" + "".join(f"  pub {t.name} : List {t.type}\n" for t in LISTED)
    out += "\nabbrev pub tables : History → Tables\ntables A =\n    record {\n"
    out += "".join(f"      {t.name} = {HISTORIES.get(t.name, t.name + ' A')};\n" for t in LISTED) + "    }\n"
    out += "\n-- the same rows in each table, in whatever order\npub record SameTables (t t' : Tables) : Type 0 where\n"
    out += "".join(f"  pub {t.name} : IsPermutation t.{t.name} t'.{t.name}\n" for t in LISTED)
    fill("kcr_history/specs/Tables.antt", out)
    out = "-- the row under its key, new or in place of the old; all other rows and tables stay\nabbrev pub changed : Change → Tables → Tables\n"
    out += "".join(f"changed ({t.change} row) t = record t {{ {t.name} = put {t.same} row t.{t.name} }}\n" for t in LISTED)
    fill("kcr_history/specs/Changes.antt", out)


def all_rows():
    out = "-- the rows of each table\nabbrev pub tables_of : FullView → Tables\ntables_of view =\n    record {\n"
    out += "".join(f"      {t.name} = {of_view(t, 'view')}.items;\n" for t in LISTED) + "    }\n"
    fill("kcr_audit/specs/Views.antt", out)


def names():
    rows = "/// A table of the register.\n#[derive(Clone, Copy)]\npub enum TableName {\n" + "".join(f"    {variant(t)},\n" for t in LISTED) + "}\n"
    rows += f"\n/// Every table but that of the accepted commands.\nconst TABLES: [TableName; {len(LISTED) - 1}] = [\n"
    rows += "".join(f"    TableName::{variant(t)},\n" for t in LISTED if t.name != "keys") + "];\n"
    rows += "\nimpl TableName {\n    /// Its name in the database.\n    pub fn name(self) -> &'static str\n        ensures { result.now ≡ name_of self }\n    {\n        match self {\n"
    rows += "".join(f'            TableName::{variant(t)} => "{t.name}",\n' for t in LISTED) + "        }\n    }\n}\n"
    same = "\n".join(f"impl Compared for {t.type} {{\n    fn is_same(&self, other: &Self) -> bool {{\n        self == other\n    }}\n}}\n" for t in LISTED if t.name not in BY_HAND)
    one = """/// The first row in which this table differs from that of the register, or `None`.
fn compare_table<S: Alter>(
    alloc: Global,
    register: &mut Register<S>,
    table: TableName,
    rows: &FullView,
) -> Result<Option<RowDifference>, Refusal>
    requires intact { IsIntact S.Store register.old }
    requires order { IsSorted by_number rows.now.keys.items }
    ensures rows { OfHistory S.Store register.old register.new
        (λ A. IfOk result (λ found. IsCompared table (machine.tables A) rows.now found)) }
    ensures register { OfHistory S.Store register.old register.new (λ A. IfOk result (λ _. IsRegister A)) }
    ensures frame { OnlyLooks S.Store register.old register.new result }
{
    match table {
"""
    for t in LISTED:
        call = "compare_commands" if t.name == "keys" else "compare_rows"
        one += f"        TableName::{variant(t)} => {call}(alloc, register, &{of_view(t, 'rows')}),\n"
    one += "    }\n}\n"
    fill("kcr_verify/src/compare.rt", rows, same, one)


def differences():
    name = "-- the table's name in the database\nabbrev pub name_of : TableName → List ℕ\n" + "".join(f"name_of {variant(t)} = {codes(t.name)}\n" for t in LISTED)
    name += """
-- the view has the machine's rows of this table, in the order in which a database keeps them; the accepted commands in
-- any order
abbrev pub HasRows : TableName → Tables → FullView → Type 0
"""
    differs = """-- of this table, this is the first row in which the view differs from the machine
abbrev pub DiffersIn : TableName → Tables → FullView → RowDifference → Type 0
"""
    for t in LISTED:
        own, shown = f"(λ t. t.rows.{t.name})", f"{of_view(t, 'view')}.items"
        if t.name == "keys":
            name += f"HasRows Keys m view = IsPermutation m.keys {shown}\n"
            differs += f"DiffersIn Keys m view row = IsFirstCommand m.keys {shown} row\n"
        else:
            name += f"HasRows {variant(t)} m view = AreRows {own} m {shown}\n"
            differs += equation(f"DiffersIn {variant(t)} m view row", f"IsFirstRow {own} kinds.{t.row}_kinds stored.{t.row_of} m {shown} row")
    order = "-- the order in which tables are compared\nabbrev pub compared : List TableName\ncompared =\n    " + listed([variant(t) for t in LISTED if t.name == "keys"] + [variant(t) for t in LISTED if t.name != "keys"])
    fill("kcr_verify/specs/Verification.antt", *[laid_out(it, DEFINITIONS) for it in (name, order, differs)])


def searched():
    out = "-- of each table\nabbrev pub searched : TableName → Searched\n"
    out += "".join(f"searched {variant(t)} = record {{ place = {t.place}; kinds = {t.row}_kinds }}\n" for t in LISTED)
    fill("kcr_verify/specs/Invalid.antt", out)
    stored = [t for t in TABLES if t in LISTED]
    names = f"/// Every table of the register. Those that a file of an older version lacks are the last.\nconst STORED: [TableName; {len(stored)}] = [\n"
    names += "".join(f"    TableName::{variant(t)},\n" for t in stored) + "];\n"
    one = """/// The first invalid row of this table.
fn search_table<S: Alter>(
    alloc: Global,
    tx: &mut Transaction<'_, S>,
    table: TableName,
) -> Result<Option<InvalidRow>, Refusal>
    ensures found { OfTrees S.Store tx.old tx.new result (λ db found. IfSome found (IsInvalidIn db)) }
    ensures frame { Reads S.Store tx.old tx.new result }
{
    match table {
"""
    one += "".join(f"        TableName::{variant(t)} => search_rows::<S, {t.type}>(alloc, tx, table, {t.keys}),\n" for t in LISTED) + "    }\n}\n"
    fill("kcr_verify/src/invalid.rt", names, one)


def lists():
    views()
    history()
    all_rows()
    names()
    differences()
    searched()
