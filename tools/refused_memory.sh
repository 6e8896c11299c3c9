#!/usr/bin/env bash
# Each allocation of the program refused in turn: refused_memory.py, by a small library that is compiled for it.
#
# tools/refused_memory.sh PROGRAM
set -eu
here=$(cd "$(dirname "$0")" && pwd)
program=$(readlink -f "${1:-bin/tensor_run}")
room=$(mktemp -d)
trap 'rm -rf "$room"' EXIT
cc -O1 -shared -fPIC -o "$room/refused_memory.so" "$here/refused_memory.c"
python3 "$here/refused_memory.py" "$program" "$room/refused_memory.so"
