#!/usr/bin/env bash
# Times the tables: prints nanoseconds for a reading by key, a row of a reading of all, and a row put in place of one that
# is there, in tables of 100, of 10,000 and of 100,000 rows, in memory and over a file in the folder that TMPDIR names. The
# program (bench/tables/main.txt) stands apart from crates.txt, since what it prints is another number each time. It is
# proved like any crate.
set -eu
cd "$(dirname "$0")/.."
work=$(mktemp -d)
trap 'rm -rf "$work"' EXIT
mkdir "$work/crates"
for crate in kcr_base kcr_people kcr_custody kcr_script kcr_room kcr_history kcr_rows kcr_tables; do
  cp -r "crates/$crate" "$work/crates/$crate"
  grep "^$crate:" crates.txt >> "$work/crates.txt"
done
mkdir -p "$work/crates/bench_tables/src"
cp bench/tables/main.txt "$work/crates/bench_tables/src/main.rt"
cp bench/tables/stdin "$work/crates/bench_tables/stdin"
printf 'bench_tables: kcr_base kcr_history kcr_tables sqlite anyhow\n' >> "$work/crates.txt"
cd "$work/crates/bench_tables"
rt run
