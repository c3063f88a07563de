"""Writes the definitions: the schema, the rows, and what the database holds."""
from table_list import TABLES, MACHINE
from table_writer import ROWS_CRATE, write, codes, listed


HOMES = {
    "facility_text": "Rattle.kcr_base.specs.Facility",
    "role_text": "Rattle.kcr_base.specs.Role",
    "place_text": "Rattle.kcr_base.specs.Place",
    "spot_text": "Rattle.kcr_custody.specs.Spots",
    "written": "Rattle.kcr_script.specs.Seats",
    "int_or_null": "Rattle.kcr_rows.specs.Values",
    "truth_number": "Rattle.kcr_rows.specs.Values",
}


def home_of(word):
    return HOMES.get(word, "Rattle.kcr_rows.specs.States")


def uses(words):
    by_home = {}
    for w in words:
        by_home.setdefault(home_of(w), []).append(w)
    return "".join(f"use {home}.{{{', '.join(ws)}}}\n" for home, ws in by_home.items())


def spec_rows():
    words = []
    for t in TABLES:
        for w in t.words():
            if w not in words:
                words.append(w)
    out = "-- The row that stands for a value.\n"
    out += "use Rattle.std.specs.Prelude.{[], ◌∷◌, pos}\nuse Rattle.sqlite.specs.declared.types.Value.TheVariants.{Int, Text}\nuse Rattle.sqlite.specs.Order.{Row}\n"
    out += uses(words)
    out += "".join(f"use {t.declared}\n" for t in TABLES)
    for t in TABLES:
        out += f"\nabbrev pub {t.row_of} : {t.type} → Row\n{t.row_of} x = {t.row_is('x')}\n"
    write("specs/Rows.antt", out, ROWS_CRATE)


def spec_kinds():
    variants = ", ".join(sorted({c.kind.variant for t in TABLES for c in t.columns}))
    out = f"""-- What the cells of each table's columns are.
use Rattle.std.specs.Prelude.{{List, [], ◌∷◌}}
use Rattle.kcr_rows.specs.declared.kinds.Kind.{{Kind}}
use Rattle.kcr_rows.specs.declared.kinds.Kind.TheVariants.{{{variants}}}
"""
    for t in TABLES:
        out += f"\nabbrev pub {t.row}_kinds : List Kind\n{t.row}_kinds = {listed([c.kind.variant for c in t.columns])}\n"
    write("specs/Kinds.antt", out, ROWS_CRATE)


def spec_schema():
    out = "-- The schema: a table for each kind of row, with the index that its key gets.\n"
    out += "use Rattle.std.specs.Prelude.{List, [], ◌∷◌, codes}\nuse Rattle.sqlite.specs.Table.{Table}\nuse Rattle.sqlite.specs.Schema.{Schema}\nuse Rattle.kcr_rows.specs.Columns.{words, number, words_or_null, number_or_null, keyed, aliased, schema_of}\n"
    for t in TABLES:
        columns = listed(t.schema_columns())
        places = listed(i + 1 for i in range(t.keys))
        others = "".join("(" + " ∷ ".join(str(i + 1) for i in other) + " ∷ []) ∷ " for other in t.others) + "[]"
        others = f"({others})" if t.others else others
        made = f"aliased ({codes(t.name)}) {t.tree} ({columns}) {t.places().index(0)} (({places}) ∷ {others})" if t.alias else f"keyed ({codes(t.name)}) {t.tree} ({columns}) ({places}) {others}"
        out += f"\n-- {t.doc}\nabbrev pub {t.name} : Table\n{t.name} = {made}\n"
    out += "\nabbrev pub all_tables : List Table\nall_tables = " + " ∷ ".join(t.name for t in TABLES) + " ∷ []\n"
    out += "\nabbrev pub register_schema : Schema\nregister_schema = schema_of all_tables\n"
    write("specs/Schema.antt", out)


def spec_held():
    out = "-- The database holds the tables of a register.\n"
    out += "use Rattle.std.specs.Prelude.{◌≡◌, List, [], ◌∷◌, map}\nuse Rattle.std.specs.List.{AllByRecursion}\nuse Rattle.sqlite.specs.Effect.{Database}\nuse Rattle.sqlite_catalog.specs.Listing.{IsSound}\nuse Rattle.sqlite.specs.Tree.{Trees}\n"
    out += "use Rattle.kcr_history.specs.Tables as machine\nuse Rattle.kcr_tables.specs.Schema.{register_schema}\nuse Rattle.kcr_rows.specs.Keyed.{TableLayout, TreeHolds}\n"
    out += "use Rattle.kcr_rows.specs.Rows.{" + ", ".join(t.row_of for t in TABLES) + "}\n"
    out += "use Rattle.kcr_rows.specs.States.{" + ", ".join(t.is_stored for t in TABLES if t.is_stored) + "}\n"
    out += "".join(f"use {t.declared}\n" for t in TABLES if t.name not in MACHINE)
    out += "\n-- where each table lies\n"
    for t in TABLES:
        out += f"\nabbrev pub {t.place} : TableLayout\n{t.place} = record {{ tree = {t.tree}; at = {listed(t.places())}; keys = {t.keys} }}\n"
    out += "\n-- the rows of each table, in the order of their keys: those of the machine's tables, and what is beside them\npub record StoredTables : Type 0 where\n  pub rows : machine.Tables\n"
    out += "".join(f"  pub {t.name} : List {t.type}\n" for t in TABLES if t.name not in MACHINE)
    out += "\n-- what the trees of a file hold\npub record TreesHold (db : Trees) (t : StoredTables) : Type 0 where\n  -- the catalog lists this schema, by which the file is read again\n  pub sound : IsSound register_schema db\n"
    out += "".join(f"  pub {t.name} : TreeHolds {t.place} db (map {t.row_of} {t.rows_of('t')})\n" for t in TABLES)
    out += "  -- what is known of the values that were put, beside their rows\n"
    out += "".join(f"  pub {t.stored_fact} : AllByRecursion {t.is_stored} {t.rows_of('t')}\n" for t in TABLES if t.is_stored)
    out += "\n-- the database has the register's schema and these rows, and no others\npub record Holds (db : Database) (t : StoredTables) : Type 0 where\n  pub schema : db.schema ≡ register_schema\n  pub kept : TreesHold db.trees t\n"
    write("specs/StoredTables.antt", out)


def spec_made():
    out = "-- How an empty database becomes one of a register.\n"
    out += "use Rattle.std.specs.Prelude.{◌≡◌, ℕ, List, [], ◌∷◌, take, codes, slice_index_or}\nuse Rattle.sqlite.specs.Effect.{Database}\nuse Rattle.sqlite.specs.Schema.{Schema}\n"
    out += "use Rattle.kcr_rows.specs.Columns.{AreEmpty, schema_of}\nuse Rattle.kcr_tables.specs.Schema.{all_tables}\n"
    out += "\n-- the texts that make the tables, in their order\nabbrev pub texts : List (List ℕ)\ntexts =\n    "
    out += "\n    ∷ ".join(codes(t.create_table_sql()) for t in TABLES) + " ∷ []\n"
    out += "\nabbrev pub text_at : ℕ → List ℕ\ntext_at at = slice_index_or texts at []\n"
    out += "\n-- the schema of the first tables; of none, that of an empty database\nabbrev pub schema_prefix : ℕ → Schema\nschema_prefix count = schema_of (take count all_tables)\n"
    out += "\n-- the database has the first tables, and no row in them\npub record HasEmptyTables (count : ℕ) (db : Database) : Type 0 where\n"
    out += "  pub schema : db.schema ≡ schema_prefix count\n  pub empty : AreEmpty (take count all_tables) db.trees\n"
    write("specs/Creation.antt", out)


def spec_changed():
    puts = [t for t in TABLES if t.change]
    out = "-- What a change makes of the tables.\nuse Rattle.std.specs.Prelude.{List, fold}\nuse Rattle.kcr_rows.specs.Keyed.{put_in}\n"
    out += "use Rattle.kcr_rows.specs.Rows.{" + ", ".join(t.row_of for t in puts) + "}\nuse Rattle.kcr_history.specs.Tables as machine\nuse Rattle.kcr_tables.specs.StoredTables.{StoredTables}\n"
    out += "use Rattle.kcr_history.specs.declared.views.Change.{Change}\nuse Rattle.kcr_history.specs.declared.views.Change.TheVariants.{" + ", ".join(t.change for t in puts) + "}\n"
    out += "\n-- the rows after a change: its row is put into its table, under its key\nabbrev pub rows_after : Change → machine.Tables → machine.Tables\n"
    out += "".join(f"rows_after ({t.change} x) m = record m {{ {t.name} = put_in {t.keys} {t.row_of} x m.{t.name} }}\n" for t in puts)
    out += "\n-- the tables after it: what is beside the rows stays\nabbrev pub changed : Change → StoredTables → StoredTables\nchanged change t = record t { rows = rows_after change t.rows }\n"
    out += "\n-- after one change after the other\nabbrev pub changed_all : List Change → StoredTables → StoredTables\nchanged_all changes t = record t { rows = fold (λ rows c. rows_after c rows) t.rows changes }\n"
    write("specs/Changed.antt", out)


def spec_joint():
    out = """-- The database holds the tables of the machine. The machine has the rows of a table in any order, the database in the
-- order of their keys.
use Rattle.std.specs.Prelude.{◌≡◌}
use Rattle.sqlite.specs.Tree.{Trees}
use Rattle.sqlite.specs.Effect.{Database}
use Rattle.kcr_history.specs.Tables as machine
use Rattle.kcr_tables.specs.Schema.{register_schema}
use Rattle.kcr_tables.specs.StoredTables.{StoredTables, TreesHold}
use Rattle.kcr_tables.specs.NewTables.{new_tables}

-- the same rows, in any order; the version is that of a new register
pub record SameRows (m : machine.Tables) (t : StoredTables) : Type 0 where
"""
    out += """  pub rows : machine.SameTables m t.rows
  pub versions : t.versions ≡ new_tables.versions

-- the trees of a file hold these tables
pub record TreesHoldTables (m : machine.Tables) (db : Trees) : Type 0 where
  pub t : StoredTables
  pub kept : TreesHold db t
  pub stands : SameRows m t

-- the database has the register's schema and holds these tables
pub record HoldsTables (m : machine.Tables) (db : Database) : Type 0 where
  pub schema : db.schema ≡ register_schema
  pub tables : TreesHoldTables m db.trees
"""
    write("specs/MachineTables.antt", out)


def spec_first():
    out = """-- The tables of a new register.
use Rattle.std.specs.Prelude.{[], ◌∷◌, false}
use Rattle.kcr_base.specs.declared.place.Facility.{Facility}
use Rattle.kcr_custody.specs.declared.SafeNumber.{SafeNumber}
use Rattle.kcr_custody.specs.declared.SafeRow.{SafeRow}
use Rattle.kcr_history.specs.Tables as machine
use Rattle.kcr_tables.specs.StoredTables.{StoredTables}

-- the tables of this version with these rows
abbrev pub as_held : machine.Tables → StoredTables
as_held m = record { rows = m; versions = record { number = 3 } ∷ [] }

-- those of a new register: the rows of the machine before any command, which are the four safes, shut
abbrev pub new_tables : StoredTables
new_tables = as_held (machine.tables [])

-- no row in any table
abbrev pub empty_tables : StoredTables
empty_tables = record { rows = record new_tables.rows { safes = [] }; versions = [] }

abbrev pub shut : Facility → SafeNumber → SafeRow
shut facility safe = record { facility = facility; safe = safe; is_open = false }
"""
    write("specs/NewTables.antt", out)


def spec_still():
    """The other tables stay if the rows of one are changed: said of a list of tables, each by its place and its rows."""
    stored = [t for t in TABLES if t.is_stored]
    facts = "".join(f" → AllByRecursion {t.is_stored} {t.rows_of('t')}" for t in stored)
    names = " ".join(t.stored_fact for t in stored)
    given = ", ".join(["sound", "h", *(t.stored_fact for t in stored)])
    rows = "\n    ∷ ".join(f"({t.place}, map {t.row_of} {t.rows_of('t')})" for t in TABLES)
    out = "-- If the rows of one table are changed, the other tables stay: said of all tables as a list.\n"
    out += """use Rattle.std.proofs.Common.{◌≡◌, ◌≢◌, ℕ, zero, suc, Bool, true, false, not, ◌&&◌, ◌==◌, List, [], ◌∷◌, map, subst, sym, rules}
use Rattle.std.specs.Bool.{⊤}
use Rattle.std.specs.List.{AllByRecursion, list_all}
use Rattle.std.proofs.lemmas.Bool.{and_parts, not-true}
use Rattle.sqlite.specs.Edit.{IsNoIndex}
use Rattle.sqlite.specs.Order.{Row}
use Rattle.sqlite.specs.Tree.{Trees}
use Rattle.sqlite_catalog.specs.Listing.{IsSound}
use Rattle.kcr_rows.specs.Keyed.{TableLayout, TreeHolds}
use Rattle.kcr_rows.proofs.TableLemmas.{keeps_still}
"""
    out += "use Rattle.kcr_rows.specs.Rows.{" + ", ".join(t.row_of for t in TABLES) + "}\n"
    out += "use Rattle.kcr_rows.specs.States.{" + ", ".join(t.is_stored for t in stored) + "}\n"
    out += "use Rattle.kcr_tables.specs.Schema.{register_schema}\nuse Rattle.kcr_tables.specs.StoredTables.{StoredTables, TreesHold, " + ", ".join(t.place for t in TABLES) + "}\n"
    out += f"""
-- each table: where it lies, and its rows
abbrev pub placed_rows : StoredTables → List (TableLayout × List Row)
placed_rows t =
    {rows} ∷ []

-- each of these tables has its rows
abbrev pub AllHold : Trees → List (TableLayout × List Row) → Type 0
AllHold db [] = ⊤
AllHold db (table ∷ tables) = TreeHolds table.0 db table.1 × AllHold db tables

-- table N has these rows
abbrev pub HoldsAt : ℕ → Trees → List Row → List (TableLayout × List Row) → Type 0
HoldsAt at db rows [] = ⊤
HoldsAt zero db rows (table ∷ tables) = TreeHolds table.0 db rows
HoldsAt (suc at) db rows (table ∷ tables) = HoldsAt at db rows tables

-- these rows in table N
abbrev pub with_rows_at : ℕ → List Row → List (TableLayout × List Row) → List (TableLayout × List Row)
with_rows_at at rows [] = []
with_rows_at zero rows (table ∷ tables) = (table.0, rows) ∷ tables
with_rows_at (suc at) rows (table ∷ tables) = table ∷ with_rows_at at rows tables

-- the table lies in another tree than this one, which is no index
abbrev pub is_apart : ℕ → TableLayout × List Row → Bool
is_apart tree table = not (table.0.tree == tree) && list_all (λ i. not (i.tree == table.0.tree)) register_schema.indexes

-- so do all but table N
abbrev pub are_apart : ℕ → ℕ → List (TableLayout × List Row) → Bool
are_apart at tree [] = true
are_apart zero tree (table ∷ tables) = list_all (is_apart tree) tables
are_apart (suc at) tree (table ∷ tables) = is_apart tree table && are_apart at tree tables

-- the trees that are no index stay, but for this one
abbrev pub OthersStay : ℕ → Trees → Trees → Type 0
OthersStay tree old new = (other : ℕ) → other ≢ tree → IsNoIndex register_schema other → new other ≡ old other

stays : (tree : ℕ) (old new : Trees) → OthersStay tree old new → (table : TableLayout × List Row) → is_apart tree table ≡ true → TreeHolds table.0 old table.1 → TreeHolds table.0 new table.1
stays tree old new others table apart =
    let parts = and_parts _ _ apart in keeps_still register_schema tree table.0 old new table.1 others (not-true _ parts.0) parts.1

all_stay : (tree : ℕ) (old new : Trees) → OthersStay tree old new → (tables : List (TableLayout × List Row)) → list_all (is_apart tree) tables ≡ true → AllHold old tables → AllHold new tables
all_stay tree old new others [] apart held = tt
all_stay tree old new others (table ∷ tables) apart held =
    let parts = and_parts _ _ apart in (stays tree old new others table parts.0 held.0, all_stay tree old new others tables parts.1 held.1)

one_changed : (tree : ℕ) (old new : Trees) → OthersStay tree old new → (at : ℕ) (rows : List Row) (tables : List (TableLayout × List Row)) → are_apart at tree tables ≡ true → HoldsAt at new rows tables → AllHold old tables → AllHold new (with_rows_at at rows tables)
one_changed tree old new others at rows [] apart changed held = tt
one_changed tree old new others zero rows (table ∷ tables) apart changed held = (changed, all_stay tree old new others tables apart held.1)
one_changed tree old new others (suc at) rows (table ∷ tables) apart changed held =
    let parts = and_parts _ _ apart in (stays tree old new others table parts.0 held.0, one_changed tree old new others at rows tables parts.1 changed held.1)

as_list : (db : Trees) (t : StoredTables) → TreesHold db t → AllHold db (placed_rows t)
as_list db t k = search (rules, k)

as_record : (db : Trees) (t : StoredTables) → IsSound register_schema db → AllHold db (placed_rows t){facts} → TreesHold db t
as_record db t sound h {names} = search (rules, {given})

-- table N has new rows, and the other tables have their own as before
pub still_at : (at tree : ℕ) (old new : Trees) (before t : StoredTables) (rows : List Row) → with_rows_at at rows (placed_rows before) ≡ placed_rows t
    → are_apart at tree (placed_rows before) ≡ true → IsSound register_schema new → HoldsAt at new rows (placed_rows before)
    → OthersStay tree old new → TreesHold old before{facts} → TreesHold new t
still_at at tree old new before t rows same apart sound changed others held {names} =
    as_record new t sound (subst (AllHold new) same (one_changed tree old new others at rows (placed_rows before) apart changed (as_list old before held))) {names}
"""
    write("specs/Still.antt", out)
