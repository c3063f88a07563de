#!/usr/bin/env bash
# Times decisions: prints nanoseconds a call for a signature in a room of 12 with a script of 400 steps, for a request of
# the sheet for 12 people, and for a person entered. The program (bench/decide/main.txt) stands apart from crates.txt,
# since what it prints is another number each time. It is proved like any crate.
set -eu
cd "$(dirname "$0")/.."
work=$(mktemp -d)
trap 'rm -rf "$work"' EXIT
mkdir "$work/crates"
for crate in kcr_base kcr_seats kcr_people kcr_custody kcr_script kcr_room kcr_history kcr_laws kcr_rules kcr_machine; do
  cp -r "crates/$crate" "$work/crates/$crate"
  grep "^$crate:" crates.txt >> "$work/crates.txt"
done
mkdir -p "$work/crates/bench_decide/src"
cp bench/decide/main.txt "$work/crates/bench_decide/src/main.rt"
cp bench/decide/stdin "$work/crates/bench_decide/stdin"
printf 'bench_decide: kcr_base kcr_people kcr_script kcr_room kcr_history kcr_machine anyhow\n' >> "$work/crates.txt"
cd "$work/crates/bench_decide"
rt run
