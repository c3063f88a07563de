"""Writes what a table proves of its texts, and of its place among the others."""
from table_layout import DEFINITIONS
from table_list import TABLES
from table_specs import uses
from table_writer import write, codes, listed


# what all laws take from one module: its own lemmas, and those that it hands on
SHARED = """shows is_given inserts_as inserts_row updates_row cast_all cast_int cast_null cast_loose cast_or_null cast_within each_is
everything has_value number_in number_ties one_ceremony_state one_facility one_number one_place one_rest one_role one_safe
one_seats one_spot one_step_state one_truth one_way same_text still_at text_in text_ties value_is within_is
InsertsRow IsLookup IsTable LookupSpec SelectsRows TableSpec UpdatesRow""".split()


def record(**fields):
    return "record { " + "; ".join(f"{name} = {value}" for name, value in fields.items()) + " }"


def lines(fields):
    return "record {\n" + "".join(f"  {name} = {value};\n" for name, value in fields.items()) + "}\n"


def same_fields(t):
    """How each field of a value follows from the row `h`."""
    out = {}
    for at, c in enumerate(t.columns):
        f = c.field
        if f in out:
            continue
        if t.name == "items" and f == "rest":
            is_same = "one_rest x.rest y.rest (ap (λ (r : Row). column r 1) h) (ap (λ (r : Row). column r 2) h) i"
        elif c.kind.one:
            part = {"words": "text_in", "number": "number_in"}.get(c.kind.column)
            equal = f"(ap ({part} {at}) h)" if part else f"(ap (λ (r : Row). column r {at}) h)"
            facts = " read held" if t.is_read and f == t.stored_fact else ""
            is_same = f"{c.kind.one} x.{f} y.{f}{facts} {equal} i"
        else:
            is_same = f"{'text_in' if c.kind.column == 'words' else 'number_in'} {at} (h i)"
        out[f] = is_same
    return out


def still(t):
    """The other tables stay if the rows of this one are changed."""
    stored = " ".join("stored" if u is t else f"k.{u.stored_fact}" for u in TABLES if u.is_stored)
    return f"λ old new rows t sound keeps stored others k. still_at {TABLES.index(t)} {t.tree} old new t _ (map {t.row_of} rows) refl refl sound keeps others k {stored}"


def casts(t):
    """The values of a row as they are stored, along the line `i`."""
    return [c.kind.cast.format(x=f"x.{c.field}") for c in t.columns]


def in_front(t, of_columns, null):
    """What a row that is entered gets if a column is the row id: that one in front, and NULL in its place."""
    at = t.places().index(0)
    return listed([of_columns[at], *of_columns[:at], null, *of_columns[at + 1 :]])


def puts(t):
    """The text that gives the table a new row, and the one that changes the row that is there."""
    stored = f"""
-- its values are stored as they are
casts : (x : {t.type}) → cast_all {t.name}.columns ({t.row_of} x) ≡ {t.row_of} x
casts x i = {listed(casts(t))}
"""
    by = f"inserts_row {t.at} {t.name} casts (refl, refl, refl) refl"
    if t.alias:
        stored = ""
        terms = in_front(t, [f"col 0 {i}" for i, _ in enumerate(t.columns)], "lit Null")
        given = in_front(t, [c.value("x") for c in t.columns], "Null")
        by = f"inserts_as {t.at} {t.name} ({terms}) (λ x. {given}) (λ x i. {in_front(t, casts(t), 'cast_null i')}) (refl, refl, refl) refl"
    out = f"""{stored}
-- the text that adds the row of a value
pub inserts : InsertsRow ({codes(t.insert_text())}) {t.place} {t.row_of}
unfolding everything
inserts = {by}
"""
    if not t.may_change:
        return out
    return out + f"""
-- the text that puts it in the place of the row with its key
pub updates : UpdatesRow ({codes(t.update_text())}) {t.place} {t.row_of}
unfolding everything
updates = updates_row {t.at} {t.name} casts (refl, refl, refl) refl
"""


def finds(t, r):
    """The text that shows the rows with a value."""
    p, cols = r.prefix, t.columns
    place = next(i for i, c in enumerate(cols) if c.sql == r.where)
    is_number = r.ty == "u32"
    value, ties = (f"Int (pos {r.arg})", "number_ties") if is_number else (f"Text {r.arg}", "text_ties")
    under = f"value_is ({cols[place].value('x')}) ({value}) refl refl ∙ sym ({ties} x.{cols[place].field} {r.arg})"
    if t.name == "items" and r.where == "serial":
        under = f"within_is x.rest {r.arg}"
    way = record(is_under=f"λ {r.arg} x. {applied_to(t, r)}", column=place, find_sql=codes(t.text_of(r)))
    return f"""
-- {r.doc[0].lower() + r.doc[1:]}
abbrev pub {p} : LookupSpec {'ℕ' if is_number else '(List ℕ)'} {t.type}
{p} = {way}

pub {p}_laws : IsLookup {p} {t.place} {'(λ n. Int (pos n))' if is_number else 'Text'} {t.row_of}
unfolding everything
{p}_laws = record {{
  finds = λ {r.arg}. shows {t.name} (is_given {t.places()[place]}) (refl, refl, refl) refl;
  under = λ {r.arg} x. {under};
}}
"""


def applied_to(t, r):
    """The test of a row `x` by the argument."""
    return f"{r.ask.format(v=r.arg)} x" if r.ask else r.tests.format(x="x", v=r.arg)


def table(t):
    """The table itself, as a value."""
    fields = {
        "rows_in": f"λ t. {t.rows_of('t')}",
        "place": t.place,
        "is_stored": t.is_stored or "λ _. ⊤",
        "with_rows": f"λ rows t. {t.with_rows('t', 'rows')}",
        "all_sql": codes(t.select_all_sql()),
    }
    return f"""
abbrev pub table : TableSpec {t.type}
table = {lines(fields)}"""


def table_laws(t):
    """What holds of it."""
    same = "subst (λ l. IsPermutation new_tables.versions l) (sym s.versions) (IsPermutation-refl new_tables.versions)"
    fields = {
        "lists": "lists",
        "one_value": "one_value",
        "keeps": f"λ db t k. k.{t.name}",
        "stores": f"λ db t k. k.{t.stored_fact}" if t.is_stored else f"λ db t k. each_is {t.rows_of('t')}",
        "still": still(t),
        "stands": f"λ m t s. {same if t.name == 'versions' else f's.rows.{t.name}'}",
    }
    return f"""
pub table_laws : IsTable table {t.row_of} {f'{t.is_read}' if t.is_read else '(λ _. ⊤)'}
table_laws = {lines(fields)}"""


def laws(t):
    fields = same_fields(t)
    out = f"-- What the table {t.name} proves of its texts, and of its place among the others.\n"
    common = ["◌≡◌", "◌≢◌", "inl", "inr", "IsPermutation", "ℕ", "pos", "List", "[]", "◌∷◌", "map", "codes", "true", "refl", "sym", "ap", "subst", "◌∙◌", "◌==◌"]
    out += f"use Rattle.std.proofs.Common.{{{', '.join(common)}}}\n"
    out += """use Rattle.std.specs.Bool.{⊤}
use Rattle.std.proofs.lemmas.List.Sorted.{IsPermutation-refl}
use Rattle.sqlite.specs.declared.types.Value.TheVariants.{Null, Int, Text}
use Rattle.sqlite.specs.Term.{lit, col}
"""
    if any("column r" in is_same for is_same in fields.values()):
        out += "use Rattle.sqlite.specs.Order.{Row, column}\n"
    words = sorted({r.ask.split()[0] for r in t.readings if r.ask})
    if words:
        out += f"use Rattle.kcr_history.specs.Views.{{{', '.join(words)}}}\n"
    if t.name == "items":
        out += "use Rattle.kcr_history.specs.declared.views.ItemFilter.TheVariants as Wanted\n"
    out += uses(t.words())
    out += f"use Rattle.kcr_rows.specs.Rows.{{{t.row_of}}}\nuse {t.declared}\n"
    facts = sorted({x for x in (t.is_read, t.is_stored) if x})
    if facts:
        out += f"use Rattle.kcr_rows.specs.States.{{{', '.join(facts)}}}\n"
    out += f"use Rattle.kcr_tables.specs.Schema.{{{t.name}}}\nuse Rattle.kcr_tables.specs.StoredTables.{{{t.place}}}\n"
    out += f"use Rattle.kcr_tables.specs.NewTables.{{new_tables}}\nuse Rattle.kcr_tables.specs.TableTexts.{{{', '.join(SHARED)}}}\n"
    out += table(t)
    known = f"{f'{t.is_read} x' if t.is_read else '⊤'} → {f'{t.is_stored} y' if t.is_stored else '⊤'}"
    out += f"\n-- no two values stand for one row\npub one_value : (x y : {t.type}) → {known} → {t.row_of} x ≡ {t.row_of} y → x ≡ y\n"
    one = f"one_value x y read held h = λ i. {record(**fields)}\n"
    out += one if len(one) <= DEFINITIONS else f"one_value x y read held h = λ i. {lines(fields)}"
    out += f"\nlists : SelectsRows table.all_sql {t.place} [] (λ _. true)\nunfolding everything\nlists = shows {t.name} [] (refl, refl, refl) refl\n"
    for r in t.readings:
        out += finds(t, r)
    out += puts(t) + table_laws(t)
    write(f"specs/{t.laws}.antt", out)
