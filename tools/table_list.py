"""The tables of the register: the kinds of their columns, their keys, and the readings of each."""
import re

from table_writer import codes


class Kind:
    """How a field of a value stands in one column."""

    def __init__(self, cell, sql, column, value, read, write, one=None, cast=None, ties=None, words=(), casts=()):
        self.variant = cell  # what the cells are, as `Kind` of kcr_rows names it
        self.sql = sql  # the type in CREATE TABLE
        self.column = column  # the column of the schema
        self.value = value  # the value of a row; {x} is the field
        self.read = read  # the reader's call; {at} is the column
        self.write = write  # the cell's call; {x} is the field
        self.one = one  # the lemma that equal values are of equal fields, or None where that is plain
        self.cast = cast or value  # the value as it is stored, along the line i
        self.ties = ties  # the lemma that the test of a key is a tie of values
        self.words = words  # definitions that the value names
        self.casts = casts  # lemmas that the cast names

    def cell(self):
        return re.split(r"\(|::", self.write)[0]

    def reader(self):
        return re.split(r"\(|::", self.read)[0]

    def counted(self):
        """The kind of number that the reader is told, if any."""
        return re.findall(r"<(\w+)>", self.read or "")


TEXT_AT = "text_at(alloc, row, {at})?"


def text(cell):
    return Kind(cell, "TEXT NOT NULL", "words", "Text {x}", TEXT_AT, "Cell::Text({x}.as_str())", ties="text_ties")


def integer(cell, read="number_at(row, {at})?"):
    return Kind(cell, "INT NOT NULL", "number", "Int (pos {x})", read, "number({x})", cast="cast_int (pos {x}) i", ties="number_ties", casts=("cast_int",))


def integer_or_null(cell, read="number_or_null_at(row, {at})?"):
    return Kind(f"{cell}OrNull", "INT", "number_or_null", "int_or_null {x}", read, "number_or_null({x})", one="one_number", cast="cast_or_null {x} i", words=("int_or_null",), casts=("cast_or_null",))


def counted(kind):
    """A number from 1 to the greatest of its kind."""
    return integer(kind[2:], f"counted_at::<{kind}>(row, {{at}})?")


def counted_or_null(kind):
    return integer_or_null(kind[2:], f"counted_or_null_at::<{kind}>(row, {{at}})?")


def numbered(name, word, ties=None):
    return Kind("".join(part.capitalize() for part in name.split("_")), "INT NOT NULL", "number", f"Int (pos ({word} {{x}}))", "number_at(row, {at})?", "number({x})", one=f"one_{name}", cast=f"cast_int (pos ({word} {{x}})) i", ties=ties, words=(word,), casts=("cast_int",))


def named(name, write="Cell::Text({x}.text())", read=TEXT_AT, cell=None):
    word = f"{name}_text"
    return Kind(cell or name.capitalize(), "TEXT NOT NULL", "words", f"Text ({word} {{x}})", read, write, one=f"one_{name}", ties=f"{name}_ties", words=(word,))


INITIALS = text("Initials")
KEY = text("Key")
SERIAL = text("Serial")
ITEM = text("Serial")
NAME = text("Name")
ACTIVITY = text("Activity")
REMARK = text("Remark")
TEXT = text("Text")
VERSION = integer("Version")
CEREMONY = counted("OfCeremony")
BOX = counted("OfBox")
STEP = counted("OfStep")
SEAT = counted("OfSeat")
EXCEPTION = counted("OfException")
COMMAND = counted("OfCommand")
DAY = integer("Day")
MOMENT = integer("Moment")
DAY_OR_NULL = integer_or_null("Day")
MOMENT_OR_NULL = integer_or_null("Moment")
STEP_OR_NULL = counted_or_null("OfStep")
FACILITY = named("facility")
ROLE = named("role")
PLACE = named("place", "Cell::Place({x}.text())")
# the place of a box: a Crypto Officer's of its facility
OFFICER = named("place", "Cell::Place({x}.text())", "officer_at(alloc, row, {at}, facility)?", "Officer")
SAFE = numbered("safe", "safe_digit", "safe_ties")
TRUTH = numbered("truth", "truth_number")
WAY = numbered("way", "way_number")
CEREMONY_STATE = numbered("ceremony_state", "ceremony_number")
STEP_STATE = numbered("step_state", "step_number")
SPOT = Kind("Spot", "TEXT NOT NULL", "words", "Text (spot_text {x})", "spot_at(row, {at})?", "spot(alloc, {x})?", one="one_spot", words=("spot_text",))
SEATS = Kind("Seats", "TEXT NOT NULL", "words", "Text (written {x})", "seats_at(alloc, row, {at})?", "seats(alloc, &{x})?", one="one_seats", words=("written",))
# the two columns of an item's rest
LOOSE = Kind("Loose", "TEXT", "words_or_null", "loose_value {x}", "rest_at(row, {at})?", "loose({x})", cast="cast_loose {x} i", words=("loose_value",), casts=("cast_loose",))
WITHIN = Kind("Within", "TEXT", "words_or_null", "within_value {x}", None, "within(&{x})", cast="cast_within {x} i", words=("within_value",), casts=("cast_within",))


class Column:
    def __init__(self, name, kind, field=None):
        self.name, self.kind, self.field = name, kind, field or name
        self.sql = f'"{name}"' if name == "key" else name

    def value(self, x):
        return self.kind.value.format(x=f"{x}.{self.field}")


class Reading:
    """The rows that pass a test, in the order of their keys."""

    def __init__(self, name, doc, where, arg=None, ty=None, kind=None, tests=None, ask=None, prefix=None):
        self.name, self.doc, self.where, self.arg, self.ty, self.kind = name, doc, where, arg, ty, kind
        self.tests = tests  # the test of a row {x} by the argument {v}
        self.ask = ask  # the test as a function, of the argument {v}
        self.prefix = prefix or name


class Table:
    def __init__(self, name, row, type_, crate, module, columns, keys, doc, change=None, same=None, turned=False, others=(), readings=(), alias=None, always_new=False,
                 new_where=None, is_read=None, is_stored=None, stored_fact=None):
        self.name, self.row, self.type = name, row, type_
        self.crate = crate
        self.declared = f"Rattle.{crate}.specs.declared.{module}{type_}.{{{type_}}}"
        self.columns, self.keys, self.doc = columns, keys, doc
        self.change, self.same, self.turned = change, same, turned
        self.others, self.readings = others, readings
        self.alias = alias  # the column that is the row id: such a table has a key of one column
        self.always_new = always_new  # a row that is put has a key that no row had: it is entered, and never changed
        self.may_change = not always_new  # a row may have the key already: an UPDATE changes it, and an INSERT enters the new one where there was none
        self.new_where = new_where  # of such a table, which rows have a key that no row had: an INSERT alone enters these
        self.is_read, self.is_stored, self.stored_fact = is_read, is_stored, stored_fact
        self.row_of = f"{row}_row"
        self.place = f"{name}_place"
        self.laws = "".join(p.capitalize() for p in name.split("_")) + "Laws"
        self.needs_alloc = any("alloc" in c.kind.write for c in columns)
        self.put = "put_allocating" if self.needs_alloc else "put"

    def names(self):
        return ", ".join(c.sql for c in self.columns)

    def order(self):
        return ", ".join(c.sql for c in self.columns[: self.keys])

    def select_all_sql(self):
        return f"SELECT {self.names()} FROM {self.name} ORDER BY {self.order()}"

    def text_of(self, reading):
        return f"SELECT {self.names()} FROM {self.name} WHERE {reading.where} = ?1 ORDER BY {self.order()}"

    def insert_text(self):
        marks = ", ".join(f"?{i + 1}" for i in range(len(self.columns)))
        return f"INSERT INTO {self.name} ({self.names()}) VALUES ({marks})"

    def update_text(self):
        return f"UPDATE {self.name} SET {self.sets(self.columns, ', ')} WHERE {self.sets(self.columns[: self.keys], ' AND ')}"

    def sets(self, columns, between):
        """These columns, the first of the table, with the parameters that they get or are asked for."""
        return between.join(f"{c.sql} = ?{i + 1}" for i, c in enumerate(columns))

    def create_table_sql(self):
        if self.alias:
            kinds = [self.columns[0].kind.sql + " UNIQUE", *("INTEGER PRIMARY KEY" if c.name == self.alias else c.kind.sql for c in self.columns[1:])]
            return f"CREATE TABLE {self.name} ({', '.join(f'{c.sql} {kind}' for c, kind in zip(self.columns, kinds))}) STRICT"
        columns = ", ".join(f"{c.sql} {c.kind.sql}" for c in self.columns)
        others = "".join(f", UNIQUE ({', '.join(self.columns[i].sql for i in other)})" for other in self.others)
        return f"CREATE TABLE {self.name} ({columns}, PRIMARY KEY ({self.order()}){others}) STRICT"

    def row_is(self, x):
        return " ∷ ".join(c.value(x) for c in self.columns) + " ∷ []"

    def places(self):
        """Where each column stands in an entry of the tree: the row id is in front of them, and an alias is there too."""
        return [0 if c.name == self.alias else i + 1 for i, c in enumerate(self.columns)]

    def schema_columns(self):
        """The columns as the schema has them: it takes an alias for one that may be NULL, as it is in the entries."""
        return [f"{'number_or_null' if c.name == self.alias else c.kind.column} ({codes(c.name)})" for c in self.columns]

    def rows_of(self, t):
        """Its rows among those of all tables, `t`."""
        return f"{t}.rows.{self.name}" if self.name in MACHINE else f"{t}.{self.name}"

    def with_rows(self, t, rows):
        """The tables `t` with these rows in the place of its own."""
        own = f"{self.name} = {rows}"
        return f"record {t} {{ rows = record {t}.rows {{ {own} }} }}" if self.name in MACHINE else f"record {t} {{ {own} }}"

    def tree_count(self):
        return 2 + len(self.others)

    def words(self):
        found = []
        for c in self.columns:
            for w in c.kind.words:
                if w not in found:
                    found.append(w)
        return found


def of_person(table, word):
    return Reading(f"{table}_of", "The rows of one person", "who", "who", "&Initials", INITIALS, "same_text {x}.who {v}", ask=f"{word} {{v}}")


def of_ceremony(table, word):
    return Reading(f"{table}_of", "The rows of one ceremony", "ceremony", "ceremony", "u32", CEREMONY, "{x}.ceremony == {v}", ask=f"{word} {{v}}")


TABLES = [
    Table("people", "person", "Person", "kcr_people", "", [Column("who", INITIALS), Column("name", NAME)], 1,
          "a person under their initials",
          "PutPerson", "same_person", always_new=True,
          readings=[Reading("person_of", "The row of the person with these initials, alone, or none", "who", "who", "&Initials", INITIALS, "same_text {x}.who {v}")]),
    Table("trainings", "training", "Training", "kcr_people", "", [Column("who", INITIALS), Column("role", ROLE), Column("since", DAY), Column("until", DAY)], 4,
          "a training of a person for a role, all of it its key",
          "PutTraining", "same_training", turned=True, always_new=True, readings=[of_person("trainings", "is_training_of")]),
    Table("appointments", "appointment", "Appointment", "kcr_people", "", [Column("place", PLACE), Column("since", DAY), Column("who", INITIALS), Column("until", DAY_OR_NULL)], 2,
          "who holds a custodian's place, under the place and the first day",
          "PutAppointment", "same_appointment", others=[[2, 1, 0]]),
    Table("boxes", "box", "BoxRow", "kcr_custody", "", [Column("facility", FACILITY), Column("box", BOX, "number"), Column("place", OFFICER)], 2,
          "a box under its facility and number", "PutBox", "same_box", always_new=True),
    Table("safes", "safe", "SafeRow", "kcr_custody", "", [Column("facility", FACILITY), Column("safe", SAFE), Column("state", TRUTH, "is_open")], 2,
          "a safe under its facility and number", "PutSafe", "same_safe_row"),
    Table("bags", "bag", "Bag", "kcr_custody", "", [Column("serial", SERIAL), Column("spot", SPOT)], 1,
          "a bag under its serial", "PutBag", "same_bag",
          readings=[Reading("bag_of", "The row of the bag with this serial, alone, or none", "serial", "serial", "&Serial", SERIAL, "same_text {x}.serial {v}", ask="is_of_serial {v}")], is_read="HasBoxNumber", is_stored="HasBoxNumber", stored_fact="spot"),
    Table("items", "item", "Item", "kcr_custody", "", [Column("code", ITEM), Column("facility", LOOSE, "rest"), Column("serial", WITHIN, "rest")], 1,
          "an item under its code", "PutItem", "same_item", others=[[2, 0]],
          readings=[Reading("item_of", "The row of the item with this code, alone, or none", "code", "code", "&ItemCode", ITEM, "same_text {x}.code {v}"),
                    Reading("items_within", "The rows of the items in the bag with this serial", "serial", "serial", "&Serial", SERIAL, "lies_in {v} {x}", ask="is_item_of (Wanted.Bag {v})")]),
    Table("ceremonies", "ceremony", "CeremonyRow", "kcr_history", "row_types.", [Column("number", CEREMONY), Column("facility", FACILITY), Column("day", DAY), Column("state", CEREMONY_STATE), Column("opened", MOMENT_OR_NULL), Column("closed", MOMENT_OR_NULL)], 1,
          "a ceremony under its number", "PutCeremony", "same_ceremony",
          readings=[Reading("ceremony_of", "The row of the ceremony with this number, alone, or none", "number", "number", "u32", CEREMONY, "{x}.number == {v}", ask="is_of_number {v}")]),
    Table("marks", "mark", "MarkRow", "kcr_history", "row_types.", [Column("ceremony", CEREMONY), Column("at", MOMENT)], 1,
          "the mark of a ceremony that was opened, under its number", "PutMark", "same_mark",
          readings=[Reading("mark_of", "The row of the ceremony, alone, or none", "ceremony", "ceremony", "u32", CEREMONY, "{x}.ceremony == {v}", ask="is_mark_of {v}")]),
    Table("steps", "step", "StepRow", "kcr_history", "row_types.", [Column("ceremony", CEREMONY), Column("step", STEP), Column("activity", ACTIVITY), Column("seats", SEATS), Column("state", STEP_STATE), Column("at", MOMENT_OR_NULL)], 2,
          "a step of a ceremony under both numbers", "PutStep", "same_step", new_where="self.state == StepState::Undone",
          is_read="HasOnlyTheseSeats", is_stored="HasSeatsText", stored_fact="seats"),
    Table("seatings", "seating", "SeatingRow", "kcr_history", "row_types.", [Column("ceremony", CEREMONY), Column("step", STEP), Column("seat", SEAT), Column("who", INITIALS)], 3,
          "who filled a seat of a step, under the ceremony, the step and the seat", "PutSeating", "same_seating", always_new=True),
    Table("sheet", "sheet", "SheetRow", "kcr_room", "", [Column("who", INITIALS), Column("at", MOMENT), Column("ceremony", CEREMONY), Column("way", WAY)], 2,
          "a row of a ceremony's entry and exit sheet, under the person and the moment", "PutSheet", "same_sheet_row", always_new=True),
    Table("exceptions", "exception", "ExceptionRow", "kcr_history", "row_types.", [Column("ceremony", CEREMONY), Column("exception", EXCEPTION), Column("text", REMARK), Column("at", MOMENT), Column("passed", STEP_OR_NULL)], 2,
          "a script exception of a ceremony under both numbers", "PutException", "same_exception", always_new=True,
          readings=[of_ceremony("exceptions", "is_exception_of")]),
    Table("versions", "version", "Version", "kcr_rows", "row_impls.", [Column("number", VERSION)], 1,
          "one row with the number of the schema", always_new=True),
    Table("keys", "key", "KeyRow", "kcr_history", "row_types.", [Column("key", KEY), Column("accepted", COMMAND), Column("command", TEXT), Column("reply", TEXT)], 1,
          "a row for each accepted command, under its key; its number is the row id, and that of no other row",
          "PutKey", "same_key_row", alias="accepted", always_new=True,
          readings=[Reading("key_row_of", "The row of this key, alone, or none", '"key"', "key", "&Key", KEY, "same_text {x}.key {v}", ask="is_of_key {v}")]),
    Table("stays", "stay", "Stay", "kcr_room", "", [Column("who", INITIALS), Column("since", MOMENT), Column("ceremony", CEREMONY), Column("until", MOMENT_OR_NULL)], 2,
          "a stay of a person in the room of a ceremony, under the person and its beginning", "PutStay", "same_stay", others=[[2, 1, 0]], new_where="self.until.is_none()"),
    Table("withdrawals", "withdrawal", "Withdrawal", "kcr_people", "", [Column("who", INITIALS), Column("role", ROLE), Column("since", DAY), Column("until", DAY), Column("day", DAY)], 4,
          "from which day a training is withdrawn, under the training's key", "PutWithdrawal", "same_withdrawn",
          readings=[of_person("withdrawals", "is_withdrawal_of")]),
]

tree = 0
for at, table in enumerate(TABLES):
    table.at, table.tree = at, tree
    tree += table.tree_count()

# the order of the machine's tables
MACHINE = "people trainings withdrawals appointments boxes safes bags items ceremonies marks steps seatings sheet stays exceptions keys".split()
