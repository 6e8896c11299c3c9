#!/usr/bin/env bash
# Cuts the crate of docs/own-crate.md out of the page and runs it unproved, in a folder of its own; it must print what the page says.
#
# tools/own_crate.sh
set -eu
MUBORGYAL=$(cd "$(dirname "$0")/.." && pwd)
export MUBORGYAL
command -v rt > /dev/null || { echo "tools/own_crate.sh: skipped, since no toolchain (rt) is here"; exit 0; }
page=$MUBORGYAL/docs/own-crate.md
room=$(mktemp -d)
trap 'rm -rf "$room"' EXIT

# block KIND: the page's block of this kind.
block() { sed -n '/^```'"$1"'$/,/^```$/p' "$page" | sed '1d;$d'; }

cd "$room"
block sh > make.sh
bash make.sh
block rust > own/crates/seasons/src/main.rt
block text > wanted
cd own/crates/seasons
rt try > "$room/printed" 2> "$room/said" < /dev/null || { cat "$room/said"; exit 1; }
cmp "$room/wanted" "$room/printed"
