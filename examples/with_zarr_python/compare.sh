#!/usr/bin/env bash
# Arrays in files, written by zarr-python and read by the program, and the other way round: compare.py, by a python3 that has zarr. Then each block of
# docs/zarr-python.md.
#
# examples/with_zarr_python/compare.sh PROGRAM
set -u
program=$(readlink -f "${1:-bin/tensor_run}")
here=$(cd "$(dirname "$0")" && pwd)
for python in python3 /usr/bin/python3; do
    if "$python" -c 'import zarr, numpy' 2> /dev/null; then
        "$python" -W ignore "$here/compare.py" "$program" || exit
        if "$python" -c 'import sys, zarr; sys.exit(not zarr.__version__.startswith("2."))'; then
            exec "$python" -W ignore "$here/../../tools/page.py" "$here/../../docs/zarr-python.md" "$program"
        fi
        exit
    fi
done
echo "with_zarr_python: skipped, since no python3 here has zarr (Debian: apt-get install python3-zarr)"
