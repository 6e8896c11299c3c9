#!/usr/bin/env bash
# The program beside zarr-python, on the same scripts: beside.py, by a python3 that has zarr. Without one the program runs alone.
#
# bench/beside.sh PROGRAM [CASE..]
set -u
program=$(readlink -f "${1:-bin/tensor_run}")
shift
here=$(cd "$(dirname "$0")" && pwd)
for python in python3 /usr/bin/python3; do
    if "$python" -c 'import sys, zarr, numpy; sys.exit(not zarr.__version__.startswith("2."))' 2> /dev/null; then
        exec "$python" "$here/beside.py" "$program" "$python" "$@"
    fi
done
echo "beside: no python3 here has zarr-python 2 (Debian: apt-get install python3-zarr), so the program runs alone"
exec python3 "$here/beside.py" "$program" none "$@"
