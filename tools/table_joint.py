"""Writes the lemmas over all tables."""
from table_list import TABLES
from table_specs import uses
from table_writer import write


def parts(names, rest):
    """The pattern of pairs that gives these names, and the last one to what is left."""
    return "".join(f"({name}, " for name in names) + rest + ")" * len(names)


MADE = "(refl, refl, refl, refl)"


def lemmas_make():
    n = len(TABLES)
    out = f"""-- One CREATE TABLE after the other.
use Rattle.std.proofs.Common.{{◌≡◌, ℕ, zero, suc, ◌+◌, ◌<◌, [], ◌∷◌, ◌++◌, take, Ok, refl, arith}}
use Rattle.sqlite.specs.Table.{{Table}}
use Rattle.sqlite.specs.State.{{State, Executes}}
use Rattle.sqlite_tied.specs.Compute.{{everything}}
use Rattle.sqlite_catalog.specs.Listing.{{IsSound}}
use Rattle.sqlite_trees.proofs.ListLemmas.{{all-append}}
use Rattle.kcr_rows.specs.Columns.{{AreEmpty}}
use Rattle.kcr_rows.proofs.CreateLemmas.{{Makes, creates, keeps_empty}}
use Rattle.kcr_tables.specs.Schema.{{all_tables, {', '.join(t.name for t in TABLES)}}}
use Rattle.kcr_tables.specs.Creation.{{text_at, schema_prefix}}

-- text N makes this table after those before it
abbrev pub MakesAt : ℕ → Table → Type 0
MakesAt at table = Makes (schema_prefix at) (text_at at) table (schema_prefix (at + 1))
"""
    out += """
makes_next : (at : ℕ) (table : Table) → MakesAt at table → (old new : State) (count : ℕ) → old.now.schema ≡ schema_prefix at → AreEmpty (schema_prefix at).tables old.now.trees → Executes (text_at at) [] old new (Ok count) → (new.now.schema ≡ schema_prefix (at + 1)) × AreEmpty ((schema_prefix at).tables ++ table ∷ []) new.now.trees × IsSound (schema_prefix (at + 1)) new.now.trees
makes_next at table makes old new count has empty ran =
    let made = creates (schema_prefix at) (text_at at) table (schema_prefix (at + 1)) makes old new count has ran in
    (made.0, all-append _ (schema_prefix at).tables (table ∷ []) (keeps_empty (schema_prefix at).tables _ _ made.1 empty) (made.2, tt), made.3)
"""
    for t in TABLES[15:]:
        out += f"""
-- an older version lacks it, and it is made over the others too
pub makes_{t.name} : MakesAt {t.at} {t.name}
unfolding everything
makes_{t.name} = {MADE}
"""
    out += f"""
abbrev pub Next : ℕ → State → State → Type 0
Next at old new = (new.now.schema ≡ schema_prefix (at + 1)) × AreEmpty (take (at + 1) all_tables) new.now.trees × IsSound (schema_prefix (at + 1)) new.now.trees

-- a text that is executed in its turn leaves the next schema, and all its tables empty
pub create_next : (at : ℕ) → at < {n} → (old new : State) (count : ℕ) → old.now.schema ≡ schema_prefix at → AreEmpty (take at all_tables) old.now.trees → Executes (text_at at) [] old new (Ok count) → Next at old new
unfolding everything
"""
    for t in TABLES:
        pattern = "zero"
        for _ in range(t.at):
            pattern = f"(suc {pattern})"
        out += f"create_next {pattern} low = makes_next {t.at} {t.name} {f'makes_{t.name}' if t.at >= 15 else MADE}\n"
    pattern = "at"
    for _ in range(n):
        pattern = f"(suc {pattern})"
    out += f"create_next {pattern} low = absurd (omega arith)\n"
    write("proofs/MakeLemmas.antt", out)

    out = f"""-- A new register.
use Rattle.std.proofs.Common.{{◌≡◌}}
use Rattle.sqlite.specs.Effect.{{Database}}
use Rattle.sqlite_catalog.specs.Listing.{{IsSound}}
use Rattle.kcr_rows.specs.Columns.{{AreEmpty}}
use Rattle.kcr_rows.proofs.CreateLemmas.{{bare}}
use Rattle.kcr_tables.specs.StoredTables.{{Holds, {', '.join(t.place for t in TABLES)}}}
use Rattle.kcr_tables.specs.NewTables.{{empty_tables}}
use Rattle.kcr_tables.specs.Schema.{{all_tables}}
use Rattle.kcr_tables.specs.Creation.{{schema_prefix}}

-- a database with the schema of a register and no entries holds no rows
pub holds_nothing : (db : Database) → db.schema ≡ schema_prefix {n} → AreEmpty all_tables db.trees → IsSound (schema_prefix {n}) db.trees → Holds db empty_tables
holds_nothing db is empty sound =
    let {parts([t.name for t in TABLES[:9]], "others")} = empty in
    let {parts([t.name for t in TABLES[9:]], "_")} = others in
    record {{
      schema = is;
      kept = record {{
        sound = sound;
"""
    for t in TABLES:
        out += f"        {t.name} = bare {t.place} db.trees {t.name};\n"
    for t in TABLES:
        if t.is_stored:
            out += f"        {t.stored_fact} = tt;\n"
    out += "      };\n    }\n"
    write("proofs/FirstLemmas.antt", out)


def key_test(t):
    """The proof that the machine's test of two rows is a tie of their keys, for `new` and `old`."""
    cols = t.columns[: t.keys]
    a, b = ("new", "old") if t.turned else ("old", "new")
    names = ["one_column", "two_columns", "three_columns", "four_columns"]
    rest_a = f"(drop {t.keys} ({t.row_of} {a}))"
    rest_b = f"(drop {t.keys} ({t.row_of} {b}))"
    values = " ".join(f"({c.value(a)})" for c in cols) + " " + " ".join(f"({c.value(b)})" for c in cols)
    parts = [f"{c.kind.ties} {a}.{c.field} {b}.{c.field}" for c in cols]
    if len(parts) == 1:
        left = f"{parts[0]}"
    else:
        body = " && ".join(f"{p} i" for p in parts)
        left = f"(λ i. {body})"
    proof = f"{left} ∙ {names[t.keys - 1]} {values} {rest_a} {rest_b}"
    if t.turned:
        proof += f" ∙ turned {t.keys} ({t.row_of} new) ({t.row_of} old)"
    return proof


def lemmas_joint():
    puts = [t for t in TABLES if t.change]
    out = "-- How the rows in the order of their keys meet the machine's rows, which stand in any order.\n"
    out += """use Rattle.std.proofs.Common.{rules, ◌≡◌, ◌&&◌, ℕ, List, [], ◌∷◌, map, drop, pos, refl, ◌∙◌, IsPermutation, Less}
use Rattle.std.specs.Ordering.{is_eq}
use Rattle.std.proofs.lemmas.List.Sorted.{IsPermutation-refl, IsPermutation-sym, IsPermutation-trans}
use Rattle.sqlite.specs.declared.types.Value.TheVariants.{Int, Text}
use Rattle.sqlite.specs.Order.{Row}
use Rattle.sqlite.specs.Tree.{Trees, IsAscending}
use Rattle.sqlite.specs.Effect.{Database}
use Rattle.kcr_history.specs.declared.views.Change.{Change}
"""
    out += "use Rattle.kcr_history.specs.declared.views.Change.TheVariants.{" + ", ".join(t.change for t in puts) + "}\n"
    out += "use Rattle.kcr_history.specs.Tables as machine\nuse Rattle.kcr_history.specs.Changes as changes\n"
    own = [t.same for t in puts if t.same not in ("same_training", "same_withdrawn", "same_box", "same_bag", "same_item")]
    out += f"use Rattle.kcr_history.specs.Changes.{{{', '.join(own)}}}\nuse Rattle.kcr_people.specs.People.{{same_training}}\nuse Rattle.kcr_people.specs.Laws.{{same_withdrawn}}\nuse Rattle.kcr_custody.specs.Balance.{{same_box, same_bag, same_item}}\n"
    words = []
    for t in puts:
        for c in t.columns[: t.keys]:
            for w in c.kind.words:
                if w not in words:
                    words.append(w)
    out += uses(words)
    out += "use Rattle.kcr_rows.specs.Keyed.{by_key}\n"
    out += "use Rattle.kcr_rows.proofs.OrderLemmas.{put-stands, put_in_rising}\nuse Rattle.kcr_rows.proofs.SameLemmas.{text_ties, number_ties, facility_ties, role_ties, place_ties, one_column, two_columns, three_columns, four_columns, turned}\nuse Rattle.kcr_rows.proofs.StateLemmas.{safe_ties}\n"
    out += f"use Rattle.kcr_rows.specs.Rows.{{{', '.join(t.row_of for t in puts)}}}\n"
    out += "".join(f"use {t.declared}\n" for t in puts)
    out += """use Rattle.kcr_tables.specs.StoredTables.{StoredTables, TreesHold, Holds}
use Rattle.kcr_tables.specs.NewTables.{new_tables}
use Rattle.kcr_tables.specs.Changed.{rows_after, changed, changed_all}
use Rattle.kcr_tables.specs.MachineTables.{SameRows, TreesHoldTables, HoldsTables}
use Rattle.kcr_tables.proofs.HoldLemmas.{held_of, tables_of}

-- ---- two rows of one key, by the machine's tests
"""
    for t in puts:
        out += f"\n-- the machine's test of two rows of `{t.name}` is a tie of their keys\npub key_of_{t.name} : (new old : {t.type}) → {t.same} new old ≡ is_eq (by_key {t.keys} ({t.row_of} old) ({t.row_of} new))\nkey_of_{t.name} new old = {key_test(t)}\n"
    out += "\n-- ---- changes\n\n-- the rows of values rise by the first N columns\nabbrev pub Rise : {X : Type 0} → ℕ → (X → Row) → List X → Type 0\nRise keys row_of xs = IsAscending (λ a b. by_key keys a b ≡ Less) (map row_of xs)\n\n-- those of each table do\npub record Rises (t : machine.Tables) : Type 0 where\n"
    for t in puts:
        out += f"  pub {t.name} : Rise {t.keys} {t.row_of} t.{t.name}\n"
    out += "\n-- the rows that trees hold rise by their keys\npub kept_rises : (db : Trees) (t : StoredTables) → TreesHold db t → Rises t.rows\nkept_rises db t k = search rules\n\nafter_rises : (c : Change) (t : machine.Tables) → Rises t → Rises (rows_after c t)\n"
    for t in puts:
        out += f"after_rises ({t.change} row) t r = search (rules, put_in_rising {t.keys} {t.row_of} row t.{t.name} r.{t.name})\n"
    out += "\n-- one change: its table's rows are those of the machine, in another order\nafter_same : (c : Change) (m t : machine.Tables) → Rises t → machine.SameTables m t → machine.SameTables (changes.changed c m) (rows_after c t)\n"
    for t in puts:
        put = f"put-stands {t.keys} {t.row_of} {t.same} key_of_{t.name} row m.{t.name} t.{t.name} r.{t.name} s.{t.name}"
        out += f"after_same ({t.change} row) m t r s = search (rules, {put})\n"
    out += """

-- the changes one after the other
pub all_stand : (list : List Change) (m : machine.Tables) (t : StoredTables) → Rises t.rows → SameRows m t → SameRows (changes.all_changed list m) (changed_all list t)
all_stand [] m t r s = s
all_stand (c ∷ more) m t r s =
    all_stand more (changes.changed c m) (changed c t) (after_rises c t.rows r) (record { rows = after_same c m t.rows r s.rows; versions = s.versions })

-- ---- what the store holds

-- a database that holds the rows after some changes holds the tables after them
pub changes_hold : (list : List Change) (m : machine.Tables) (old new : Database) (h : HoldsTables m old) → Holds new (changed_all list h.tables.t) → HoldsTables (changes.all_changed list m) new
changes_hold list m old new h held =
    tables_of (changes.all_changed list m) new (changed_all list h.tables.t) (all_stand list m h.tables.t (kept_rises old.trees h.tables.t h.tables.kept) h.tables.stands) held

same_itself : (t : machine.Tables) → machine.SameTables t t
same_itself t = search (rules, IsPermutation-refl)

-- a database of the new tables holds those of an empty history
pub first_holds : (db : Database) → Holds db new_tables → HoldsTables (machine.tables []) db
first_holds db held = tables_of (machine.tables []) db new_tables (record { rows = same_itself (machine.tables []); versions = refl }) held

-- ---- the same rows in another order

of_both : {X : Type 0} {xs ys zs : List X} → IsPermutation xs ys → IsPermutation xs zs → IsPermutation ys zs
of_both p q = IsPermutation-trans _ _ _ (IsPermutation-sym _ _ p) q

-- stored rows are those of any tables with the same rows
pub same_stands : (m n : machine.Tables) (t : StoredTables) → machine.SameTables m n → SameRows m t → SameRows n t
same_stands m n t same s = search (rules, of_both)

-- trees that hold some tables hold any with the same rows
pub same_keeps : (m n : machine.Tables) (db : Trees) → machine.SameTables m n → TreesHoldTables m db → TreesHoldTables n db
same_keeps m n db same h = record { t = h.t; kept = h.kept; stands = same_stands m n h.t same h.stands }

-- a database that holds some tables holds any with the same rows
pub same_holds : (m n : machine.Tables) (db : Database) → machine.SameTables m n → HoldsTables m db → HoldsTables n db
same_holds m n db same h = record { schema = h.schema; tables = same_keeps m n db.trees same h.tables }
"""
    write("proofs/JointLemmas.antt", out)
