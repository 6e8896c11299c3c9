# What answers say, in words: a line for each that isn't Ok, with its usual cause and a remedy. docs/errors.md has them all.
#
#     bin/tensor_run SCRIPT | jq -r -f tools/explain.jq

def one_of($names): . as $key | any($names[]; . == $key);
def starts($text): startswith($text);
def step: "step \(.step), counted from 0,";

def bad_line:
  if . == "json" then "is no JSON. A line is one whole JSON object: `jq -c .` puts a script that is spread over lines on lines of its own; a byte-order mark at the start has to go."
  elif . == "command" then "has not exactly one of the members open, view, read, write, begin, commit, abort, resize, resolve. One is misspelt, or there are two, or the line is no object."
  else ltrimstr("member:") as $member | ($member | split("/")[0]) as $first
  | "has the member `\($member)`, which is unknown for its command, missing, or of a wrong form" +
    if $first | one_of(["open", "read", "write", "resize", "resolve", "view", "of"]) then ": a name is 1 to 64 ASCII letters, digits or _."
    elif $first | one_of(["overlay", "concat", "stack"]) then ": it is a list of 1 to 256 names; `concat` and `stack` go with `axis`, 0 to 31."
    elif $first == "axis" then ": `concat` and `stack` go with it, a whole number from 0 to 31, and nothing else does."
    elif $first == "values" then ": a write needs it."
    elif $first == "spec" then ": `open` needs it."
    elif $first == "begin" then ": it is an object with `atomic` and `repeatable_read`, each true or false, or without them."
    elif $first | one_of(["commit", "abort"]) then ": it is true."
    elif $first == "shape" then ": it is 0 to 32 sizes, whole numbers from 0 on."
    elif $first | starts("downsample") then ": `downsample_factors` has a whole number from 1 to 4194304 for each dimension, and goes with `downsample_method`: stride, min or max."
    elif $first == "transform" then ": docs/formats.md, \"Transforms\", has its members."
    else "." end
  end;

def last_of($path): $path | split("/") | last // "";

def bad_spec:
  . as $path | last_of($path) as $last
  | if $path == "" then "has a Spec that is neither an object nor text."
    elif $path | (endswith("metadata/shape") or endswith("metadata/dimensions")) then "makes an array, and its Spec has no good `\($path)`: a new array needs its shape, a list of whole numbers."
    elif $last == "dtype" then "has no good `\($path)`: a new array, a given one and a cast need a dtype, one of int8 to uint64; where `metadata` names one too, it is the same."
    elif $path | endswith("kvstore/path") then "has a bad path: 1 to 16 parts with / between them and none in front, none of them `.`, `..` or ending in ~new."
    elif $last == "open" then "has `open` and `create` both false, or one that is neither true nor false."
    elif $path | contains("transform") then "has a faulty transform at `\($path)`: docs/formats.md, \"Transforms\", has its members."
    else "has a Spec whose `\($path)` is missing, unknown or of a wrong form: docs/formats.md, \"Specs\"." end;

def unsupported:
  . as $path | last_of($path) as $last
  | if $path | endswith("kvstore/driver") then "names a store that isn't there: `memory` is always, and `file` where the run's first word is --root."
    elif $path | endswith("kvstore") then "has a `kvstore` that is text: write an object with `driver` and `path`."
    elif $last == "driver" then "asks for a driver that isn't one of zarr, zarr3, n5, array, cast, stack."
    elif $last | one_of(["compressor", "compression", "codecs", "filters"]) then "asks for a compressed or filtered array at `\($path)`: arrays are stored as they are (docs/zarr-python.md)."
    elif $last | one_of(["dtype", "data_type", "dataType"]) then "asks for a dtype at `\($path)` that isn't one of int8 to uint64; floats go as scaled whole numbers (docs/zarr-python.md)."
    elif $path == "" then "has a Spec that is text: write it as an object."
    else "asks at `\($path)` for what TensorStore or the format has and this program doesn't (docs/tensorstore.md)." end;

def refused_cause:
  if .cause == "count" then "a list has another length than the dimensions that are selected; `diagonal` and `vindex` need one at least, and the lists of `vindex` have one length"
  elif .cause == "rank" then "the numbers of dimensions don't fit, or there would be more than 32"
  elif .cause == "target" then "a target of `transpose` is no position, or comes twice"
  elif .cause == "label" then "a label has more than 64 bytes, or comes twice"
  elif .cause == "zero_step" then "a stride or a step is 0"
  elif .cause == "unbounded" and has("layer") then "layer \(.layer) has no end along the axis"
  elif .cause == "unbounded" then "a bound is infinite: give start and stop, or move by translate_by"
  elif .cause == "bad_order" then "the start lies past the stop; to go backwards give a negative step, with the start above the stop"
  elif .cause == "out_of_range" then "an index leaves the range from \(.lo) to \(.hi). Nothing is clamped, a negative index is a position of its own, and a view of a slice keeps its indices"
  elif .cause == "index_dim" then "a bound would become implicit on which an index array depends"
  elif .cause == "overflow" then "a bound leaves the finite indices, or an offset or a stride 64 bits"
  elif .cause == "too_large" then "an index array would have more than 2^22 entries: read and write in parts"
  elif .cause == "outside" then "output \(.output) of the transform leaves the array or the view below it"
  elif .cause == "layers" then "the layers" + (if has("layer") then " up to number \(.layer)" else "" end) + " haven't one dtype and one rank: `cast` brings them to one dtype"
  elif .cause == "axis" then "the axis is no dimension of the layers"
  elif .cause == "depth" then "casts and stacks are nested more than 16 deep"
  else .cause end;

def refused:
  if has("step") then "can't do \(step) since \(refused_cause)."
  elif has("path") then "opened its arrays, and can't make the view of the Spec" + (if .path == "" then "" else " at `\(.path)`" end) + ": \(refused_cause)."
  else "can't make this view: \(refused_cause)." end;

def bad_meta:
  if .why == "json" then "finds no JSON object under \(.key): the file is damaged, or isn't metadata."
  elif .why == "unsupported" and (.member | one_of(["compressor", "compression", "codecs", "filters"])) then "finds an array that is compressed or filtered (`\(.member)` in \(.key)): make a plain copy, as docs/zarr-python.md shows."
  elif .why == "unsupported" and (.member | one_of(["dtype", "data_type", "dataType"])) then "finds an array whose numbers aren't whole ones of 8 to 64 bits (`\(.member)` in \(.key)): make a scaled copy, as docs/zarr-python.md shows."
  elif .why == "unsupported" and .member == "node_type" then "finds a group under \(.key), and no array: name an array below it."
  elif .why == "unsupported" then "finds `\(.member)` in \(.key), which this program doesn't support (docs/formats.md)."
  else "finds `\(.member)` in \(.key) missing, or not as the format asks (docs/formats.md)." end;

def damaged:
  "finds \(.key) damaged: " +
  if .why == "length" then "it has \(.have) bytes, and \(.want) are wanted. It was cut off, or written by a program that compresses."
  elif .why == "mode" then "its mode is \(.have), and only 0 is read."
  elif .why == "rank" then "it has \(.have) dimensions, and the array another number."
  else "its size along dimension \(.dim) is \(.have), which is more than a block's." end
  + " A write of all its cells mends it.";

def explained:
  if has("bad_line") then .bad_line | bad_line
  elif has("bad_spec") then .bad_spec | bad_spec
  elif has("unsupported") then .unsupported | unsupported
  elif has("bad_step") then .bad_step | "has \(step) without a form: one step name, spelt as in docs/index-space.md, and `dims` if wanted; whole numbers without a point; the parts of a slice are start, stop and step."
  elif has("unknown_name") then "names `\(.unknown_name)`, to which nothing is bound. Open it above in the same script; a line that was refused binds nothing."
  elif has("in_transaction") then "can't be done within a transaction: commit or abort first."
  elif has("no_transaction") then "ends a transaction where none stands: it has been ended by a commit or a refusal, or was never begun."
  elif has("unknown_dim") then .unknown_dim | "selects by \(step) a dimension that isn't there: positions go from 0 up to the rank, an `at` before it takes one away, and a label has to be given first."
  elif has("repeated_dim") then .repeated_dim | "selects one dimension twice by \(step) as by a position and a label, or by 1 and -1."
  elif has("refused") then .refused | refused
  elif has("not_found") then .not_found | "finds no array at \(.path). Look at the path and at --root; `\"create\":true` makes one; a group is no array."
  elif has("exists") then .exists | "would make an array at \(.path), where one is: `\"open\":true` beside `\"create\":true` takes it."
  elif has("path_taken") then .path_taken | "asks for an array above or below \(.path), which is one: arrays don't lie within each other."
  elif has("mismatch") then .mismatch | "finds an array at \(.path) whose `\(.member)` isn't as the Spec asks: leave that member out to take the array as it is."
  elif has("bad_meta") then .bad_meta | bad_meta
  elif has("unbounded") then .unbounded | "has a view without an end along dimension \(.dim): cut it by a slice with start and stop."
  elif has("too_many") then .too_many | "takes more than 4194304 cells (dimensions 0 to \(.dim) alone have so many): read and write slabs."
  elif has("out_of_range") then .out_of_range | "names cell \(.cell), whose place in the array lies outside along its dimension \(.dim). Where the array has grown, `resolve` the name first."
  elif has("uncovered") then .uncovered | "names cell \(.cell), which no layer of the stack has."
  elif has("bad_values") then "has values that don't fit at place \(.bad_values): nested lists of the view's shape, whole numbers in the range of its dtype, or one number for all."
  elif has("conflict") then .conflict | "is refused: \(.key) was read as of event \(.read), and event \(.now), of another session, changed it since. Nothing was written, and the transaction is over: do its lines again from `begin` on."
  elif has("shrunk") then .shrunk | "is refused: event \(.now) cut the array of \(.key), and a cell of the view is gone. `resolve` the name, and cut the view anew."
  elif has("not_atomic") then .not_atomic | "would change \(.keys) keys at once, and the store changes files one at a time: leave out `atomic`, commit one chunk at a time, or work in `memory`. A resize that cuts cells needs `memory` too."
  elif has("not_array") then "asks for the shape of a view that isn't of one stored array: name the array itself."
  elif has("too_many_chunks") then .too_many_chunks | "would cut more than 65536 chunks: resize in several lines, each to a shape between."
  elif has("damaged") then .damaged | damaged
  elif has("store_failed") then .store_failed | "met a store that failed (event \(.event)): a disk that is full, a right that lacks, or something at the place of a file that isn't one."
    + (if .done == [] then "" else " The events \(.done) of this commit were done before, and stand." end)
  elif has("memory") then "wanted memory, and the script ends here: run fewer workers, a smaller --cache, smaller slabs."
  else empty end;

"line \(.line) " + explained
