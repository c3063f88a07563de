#!/usr/bin/env bash
# Times the search for a seating with 16 seats and 128 people: prints the mean of ten thousand searches for three relations.
# The program (bench/seats/main.txt) stands apart from crates.txt, since what it prints is another number each time. It is
# proved like any crate.
set -eu
cd "$(dirname "$0")/.."
work=$(mktemp -d)
trap 'rm -rf "$work"' EXIT
mkdir "$work/crates"
cp -r crates/kcr_seats "$work/crates/kcr_seats"
mkdir -p "$work/crates/bench_seats/src"
cp bench/seats/main.txt "$work/crates/bench_seats/src/main.rt"
cp bench/seats/stdin "$work/crates/bench_seats/stdin"
printf 'kcr_seats:\nbench_seats: kcr_seats\n' > "$work/crates.txt"
cd "$work/crates/bench_seats"
rt run
