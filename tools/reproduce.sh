#!/usr/bin/env bash
# Builds the program and the package twice from one commit, in two folders and under two users, and compares the bytes.
# It needs root, to build as a second user. Each build proves everything first: some 40 minutes on four processors.
#
#     tools/reproduce.sh [COMMIT]
set -eu
cd "$(dirname "$0")/.."
commit=$(git rev-parse "${1:-HEAD}")
work=$(mktemp -d)
trap 'rm -rf "$work"' EXIT
chmod 755 "$work"

# build FOLDER USER: the program and the package of the commit, made by the user in a folder of that name
build() {
  mkdir -p "$work/$1"
  git clone --quiet . "$work/$1/kcr"
  git -C "$work/$1/kcr" checkout --quiet "$commit"
  chown -R "$2" "$work/$1"
  runuser -u "$2" -- env HOME="$work/$1" bash -c '
    cd "$1/crates/kcr_tool"
    rt run -- custody > /dev/null
    cd ../..
    tools/package.py crates/kcr_tool/out/kcr_tool ..
  ' build "$work/$1/kcr"
}

build first root
build a-second-one nobody
for file in kcr/crates/kcr_tool/out/kcr_tool $(cd "$work/first" && echo kcr_*.deb); do
  cmp "$work/first/$file" "$work/a-second-one/$file"
  sha256sum "$work/first/$file" | sed "s: .*/:  :"
done
echo "both builds have the same bytes"
