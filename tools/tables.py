#!/usr/bin/env python3
"""Writes the modules of the tables in crates/kcr_tables, one for each table and all alike, with what each proves of its
texts, the rows as values and what their cells are in crates/kcr_rows, and the lists of all tables in these, in
crates/kcr_history, in crates/kcr_audit and in crates/kcr_verify.

Run it at the top of the repository, then lay the files out and check:

    python3 tools/tables.py
    for crate in kcr_history kcr_audit kcr_rows kcr_tables kcr_verify; do (cd crates/$crate && rt fmt && rt check); done

With the word `schema` it writes nothing, and prints the texts that make the tables instead, one on a line and in their
order, as `tests/program.py` compares them with what sqlite3 reads in a register's file.

What differs from table to table stands in `table_list.py`: the columns, the key, and the readings. What this program
writes is committed. A whole file of it says so in its first line; in other files the lists of all tables stand between
the lines `begin` and `end`. Change the table list and never these.
"""
import sys

sys.dont_write_bytecode = True  # no files beside these

from table_joint import lemmas_joint, lemmas_make
from table_laws import laws
from table_list import TABLES
from table_lists import lists
from table_source import source, source_rows, source_texts
from table_specs import spec_changed, spec_first, spec_held, spec_joint, spec_kinds, spec_made, spec_rows, spec_schema, spec_still


def main():
    if sys.argv[1:] == ["schema"]:
        for t in TABLES:
            print(t.create_table_sql() + ";")
        return
    spec_schema()
    spec_rows()
    spec_kinds()
    spec_held()
    spec_made()
    spec_changed()
    spec_joint()
    spec_first()
    spec_still()
    source_rows()
    source_texts()
    lemmas_make()
    lemmas_joint()
    lists()
    for t in TABLES:
        source(t)
        laws(t)


if __name__ == "__main__":
    main()
