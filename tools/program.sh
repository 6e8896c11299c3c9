#!/usr/bin/env bash
# Tries words of the program: for each, the status it must end with, the one line it must say on standard error, and what it must print. Then what
# stands in the pages for users; what isn't installed here (jq, a python3 with jsonschema or NumPy, man, rt) is passed over, and said in one line.
#
# tools/program.sh PROGRAM
set -u
program=$(readlink -f "$1")
top=$(cd "$(dirname "$0")/.." && pwd)
room=$(mktemp -d)
trap 'rm -rf "$room"' EXIT
failed=0

# tried NAME STATUS SAID WORD..: the program by these words; what it writes goes to $room/answers, or where $answers says, and it has
# as much memory as there is, or $kilobytes.
answers=
kilobytes=unlimited
tried() {
    local name=$1 status=$2 said=$3 ended
    shift 3
    (ulimit -v "$kilobytes" && exec "$program" "$@") > "${answers:-$room/answers}" 2> "$room/said"
    ended=$?
    if [ "$ended" != "$status" ]; then
        echo "$name: status $ended, and not $status"
        failed=1
    fi
    if [ -n "$said" ]; then echo "$said" > "$room/wanted"; else : > "$room/wanted"; fi
    if ! cmp -s "$room/wanted" "$room/said"; then
        echo "$name: says on standard error: $(cat "$room/said")"
        failed=1
    fi
}

# wrote NAME FILE..: the last answers are those of the files, one behind another.
wrote() {
    local name=$1
    shift
    if ! cat "$@" | cmp -s - "$room/answers"; then
        echo "$name: other answers than in $*"
        failed=1
    fi
}

# holds FILE BYTES: a file of the store has these bytes, in hexadecimal digits.
holds() {
    if [ "$(od -An -v -tx1 "$1" 2>&1 | tr -d ' \n')" != "$2" ]; then
        echo "$1: other bytes than $2"
        failed=1
    fi
}

# example STATUS NAME: the script of that name among the examples, and its answers beside it.
example() {
    tried "$2" "$1" "" "$top/examples/$2.jsonl"
    wrote "$2" "$top/examples/$2.out"
}

: > "$room/nothing"
first=$top/examples/first.jsonl
refused="tensor_run: words refused"

example 0 first
example 1 several
example 1 refused
example 0 views
example 1 layers
example 1 transactions
example 1 resize
example 1 downsample
example 1 joins
example 1 formats

left=$top/examples/left.jsonl
right=$top/examples/right.jsonl
tried "two sessions" 0 "" "$left" "$right"
wrote "two sessions" "$top/examples/left.out" "$top/examples/right.out"
tried "the words of options" 0 "" --workers 01 --cache=0 -- "$left" "$right"
wrote "the words of options" "$top/examples/left.out" "$top/examples/right.out"
stored=$top/crates/tensor_run
tried "two workers" 0 "" --cache 4 --workers=2 "$stored/data/first.jsonl" "$stored/data/second.jsonl"
wrote "two workers" "$stored/stdout"

# Answers that are checked: those of the examples, and some that were changed.
told() {
    local name=$1 status=$2 line=$3 transcript=$4
    shift 4
    tried "check of $name" "$status" "" check "$transcript" "$@"
    echo "$line" > "$room/line"
    wrote "check of $name" "$room/line"
}
of_example() { told "$1" "$2" "$3" "$top/examples/$1.out" "$top/examples/$1.jsonl"; }
of_example first 0 '{"events":2,"legal":true}'
of_example resize 1 '{"line":3,"not_checked":0}'
cat "$top/examples/left.out" "$top/examples/right.out" > "$room/both"
told "two sessions" 0 '{"events":3,"legal":true}' "$room/both" "$left" "$right"
told "two sessions in the other order" 1 '{"legal":false,"part":1}' "$room/both" "$right" "$left"
"$program" --workers 4 "$left" "$right" "$first" > "$room/transcript" 2> "$room/said"
ended=$?
# A commit of $right that comes behind one of $left conflicts where it has read before it: which is first isn't said.
if [ "$ended" -gt 1 ] || [ -s "$room/said" ]; then
    echo "four workers: status $ended, and says on standard error: $(cat "$room/said")"
    failed=1
fi
tried "check of four workers" 0 "" check "$room/transcript" "$left" "$right" "$first"
sed 's/"commit":\[2\]/"commit":[3]/' "$top/examples/first.out" > "$room/changed"
told "another number" 1 '{"legal":false,"part":2}' "$room/changed" "$first"
sed 's/\[1,2,3\]/[1,2,4]/' "$top/examples/first.out" > "$room/changed"
told "another value" 1 '{"legal":false,"part":4}' "$room/changed" "$first"
sed '$d' "$top/examples/first.out" > "$room/changed"
told "a line less" 1 '{"legal":false,"part":1}' "$room/changed" "$first"
tried "check of nothing" 2 "$refused" check
tried "check without a script" 2 "$refused" check "$room/changed"
tried "check with an option" 2 "$refused" check --workers "$room/changed" "$first"
tried "check of no file" 3 "tensor_run: a file was not read" check "$room/missing" "$first"
tried "check with a script that is missing" 3 "tensor_run: a file was not read" check "$room/changed" "$room/missing"
wrote "check with a script that is missing" "$room/nothing"
cp "$first" "$room/check" && cd "$room" || exit 1
tried "a script called check" 0 "" ./check
cd "$top" || exit 1

# Scripts that are made: one line, whatever the workers.
echo '{"at":90,"commits":85,"events":90,"refused":0,"sum":506518000}' > "$room/made"
tried "made scripts" 0 "" --make 7
wrote "made scripts" "$room/made"
tried "made scripts on four workers" 0 "" --workers=4 --make=7
wrote "made scripts on four workers" "$room/made"

# The tour over one folder, script after script, and what it leaves there.
toured() {
    local status=$1 name scripts=() wanted=()
    shift
    for name in "$@"; do
        scripts+=("$top/examples/$name.jsonl")
        wanted+=("$top/examples/$name.out")
    done
    tried "$*" "$status" "" --root store "${scripts[@]}"
    wrote "$*" "${wanted[@]}"
}
mkdir "$room/tour" && cd "$room/tour" || exit 1
toured 0 tour_make
holds store/sea/temperature/0.0 19fc19fc19fc19fc19fc0c00
toured 1 tour_view
toured 0 tour_join
toured 0 tour_left tour_right
toured 0 tour_retry
toured 1 tour_grow
cd store/sea/temperature || exit 1
printf '%s' '{"chunks":[2,3],"compressor":null,"dimension_separator":".","dtype":"<i2","fill_value":-999,"filters":null,"order":"C","shape":[6,6],"zarr_format":2}' > "$room/metadata"
cmp "$room/metadata" .zarray || failed=1
[ "$(ls -A | sort | tr '\n' ' ')" = ".zarray 0.0 0.1 1.0 1.1 2.0 2.1 " ] || { echo "the tour leaves other files"; failed=1; }
holds 0.0 00000100020019fc19fc0c00
holds 0.1 19fc19fc19fc0d000e0019fc
holds 1.0 19fc19fc16001e001f002000
holds 1.1 1700180019fc210022002300
holds 2.0 280029002a0019fc19fc19fc
holds 2.1 2b002c002d0019fc19fc19fc

# Two jobs on two workers: the numbers of events hang on which is first, the chunk doesn't.
mkdir "$room/jobs" && cd "$room/jobs" || exit 1
toured 0 tour_make
tried "two jobs on two workers" 0 "" --root store --workers 2 "$top/examples/tour_left.jsonl" "$top/examples/tour_right.jsonl"
holds store/sea/temperature/0.0 0000010019fc19fc19fc0c00

cd "$room" || exit 1
tried "files" 0 "" --root "$room/store" "$top/examples/files.jsonl"
wrote "files" "$top/examples/files.out"
holds "$room/store/grids/a/0" 0100000002000000
holds "$room/store/grids/a/1" 0300000000000000
tried "files that are there" 1 "" --root store "$top/examples/again.jsonl"
wrote "files that are there" "$top/examples/again.out"
mkdir "$room/here" && cd "$room/here" || exit 1
tried "the current folder" 0 "" --root "" --workers 2 "$top/examples/files.jsonl"
holds "$room/here/grids/a/1" 0300000000000000
tried "a folder without a script" 2 "$refused" --root "$room/store"
tried "a folder behind another option" 2 "$refused" --workers 1 --root "$room/store" "$first"
tried "two folders" 2 "$refused" --root "$room/store" --root "$room/store" "$first"
tried "no folder" 2 "$refused" --root
wrote "no folder" "$room/nothing"

tried "no word" 2 "$refused"
wrote "no word" "$room/nothing"
tried "an empty word" 2 "$refused" ""
tried "help" 2 "$refused" --help
tried "a file before an option" 2 "$refused" "$first" --workers 1
tried "no worker" 2 "$refused" --workers 0 "$first"
tried "65 workers" 2 "$refused" --workers 65 "$first"
tried "workers alone" 2 "$refused" --workers
tried "workers twice" 2 "$refused" --workers 1 --workers=1 "$first"
tried "a cache of 2^27 cells and one" 2 "$refused" --cache 134217729 "$first"
tried "a file behind a number" 2 "$refused" --make 7 "$first"
tried "no number" 2 "$refused" --make
tried "a word that isn't UTF-8" 2 "$refused" $'\xff'
tried "a folder that isn't UTF-8" 2 "$refused" --root $'\xff' "$first"
wrote "a folder that isn't UTF-8" "$room/nothing"

tried "a missing script" 3 "tensor_run: script 1 was not read" "$room/missing"
wrote "a missing script" "$room/nothing"
tried "a missing script behind another" 3 "tensor_run: script 2 was not read" "$first" "$room/missing" "$first"
wrote "a missing script behind another" "$room/nothing"
cp "$first" "$room/-x" && cd "$room" || exit 1
tried "a file behind --" 0 "" -- -x
wrote "a file behind --" "$top/examples/first.out"
tried "a missing file behind --" 3 "tensor_run: script 1 was not read" -- --workers
truncate -s 67108865 "$room/long"
tried "a script of 2^26 bytes and one" 3 "tensor_run: script 1 was not read" "$room/long"
tried "the same behind another" 3 "tensor_run: script 2 was not read" "$first" "$room/long"

answers=/dev/full
tried "a full disk" 4 "tensor_run: output failed" "$first"
tried "a full disk for a verdict" 4 "tensor_run: output failed" check "$top/examples/first.out" "$first"
answers=

truncate -s 67108864 "$room/large"
kilobytes=30000
tried "a script of 64 MiB in 30 MB of memory" 5 "tensor_run: out of memory" "$room/large"
wrote "a script of 64 MiB in 30 MB of memory" "$room/nothing"
kilobytes=unlimited

# Refusals: a line for each, with its answer, and what tools/explain.jq says of it.
cp -r "$top/examples/errors/store" "$room/odd"
example 1 errors/forms
example 1 errors/steps
example 1 errors/arrays
tried "errors/files" 1 "" --root "$room/odd" "$top/examples/errors/files.jsonl"
wrote "errors/files" "$top/examples/errors/files.out"
diff -r "$top/examples/errors/store" "$room/odd" || { echo "errors/files: the folder was changed"; failed=1; }
tried "grid" 0 "" --root "$room/grid" "$top/examples/grid.jsonl"
wrote "grid" "$top/examples/grid.out"
tried "grid again" 0 "" --root "$room/grid" "$top/examples/grid.jsonl"
wrote "grid again" "$top/examples/grid.out"

# is_here NAME WHAT: whether the program NAME is installed; else WHAT is passed over.
is_here() {
    command -v "$1" > /dev/null && return
    echo "tools/program.sh: $2 passed over, since no $1 is here"
    return 1
}

if is_here jq "tools/explain.jq is"; then
    for answers in "$top"/examples/errors/*.out; do
        jq -r -f "$top/tools/explain.jq" "$answers" | cmp - "${answers%.out}.txt" || failed=1
    done
    for answers in "$top"/examples/*.out; do
        jq -r -f "$top/tools/explain.jq" "$answers" > /dev/null || failed=1
    done
    answers=
fi

# The pages, the schema, and the wrapper for Python, by a python3 that has NumPy, if there is one.
if is_here python3 "the pages, tools/script.schema.json and examples/python are"; then
    python=python3
    "$python" -c 'import numpy' 2> /dev/null || { /usr/bin/python3 -c 'import numpy' 2> /dev/null && python=/usr/bin/python3; }
    for page in README.md docs/pipelines.md docs/tensorstore.md; do
        "$python" "$top/tools/page.py" "$top/$page" "$program" || failed=1
    done
    "$python" "$top/examples/python/same_back.py" "$program" || failed=1
    python3 "$top/tools/schema.py" || failed=1
fi

# The man page has no fault, and its words and statuses are the program's.
if is_here man "docs/tensor_run.1 is"; then
    LC_ALL=C man -l --warnings "$top/docs/tensor_run.1" > "$room/page" 2> "$room/said" < /dev/null
    if [ -s "$room/said" ]; then
        echo "docs/tensor_run.1: $(cat "$room/said")"
        failed=1
    fi
fi
for said in --root --workers --cache --make " check" "a file was not read" "words refused" "was not read" "output failed" "out of memory" "was not finished"; do
    tr '\n' ' ' < "$top/docs/tensor_run.1" | sed 's/\\//g' | grep -qe "$said" || { echo "docs/tensor_run.1: lacks $said"; failed=1; }
done

# completes WANTED WORD..: bash offers these for the last word.
completes() {
    local wanted=$1 offered
    shift
    offered=$(
        cd "$room/complete" || exit 1
        . "$top/tools/tensor_run.bash"
        COMP_WORDS=(tensor_run "$@")
        COMP_CWORD=$#
        _tensor_run
        echo "${COMPREPLY[*]}"
    )
    [ "$offered" = "$wanted" ] || { echo "completion of $*: $offered, and not $wanted"; failed=1; }
}
mkdir -p "$room/complete/store" && : > "$room/complete/a.jsonl" && : > "$room/complete/a.out"
completes "--root --workers --cache --make --" --
completes "--workers" --root store --w
completes "--cache --make --" --workers 2 --
completes "store" --root s
completes "check a.jsonl store/" ""
completes "check" ch
completes "a.out" check a.o
completes "a.jsonl" check a.out a
completes "a.jsonl" --root store a
completes "a.jsonl" -- a

"$top/tools/own_crate.sh" || { echo "docs/own-crate.md: the crate doesn't print what the page says"; failed=1; }

exit $failed
