# `make` proves and builds the program (`./run SCRIPT` runs a script), `make test` is the merge gate and tries the program's words.
.PHONY: all run test edits bench faults
all: bin/tensor_run

# Each program is proved with all that it stands on, side by side (tools/build.py), whenever a source is newer than it.
sources := crates.txt $(wildcard crates/*/src/*.rt crates/*/specs/*.antt crates/*/proofs/*.antt)
programs := tensor_run bench
$(programs:%=bin/%): bin/%: $(sources)
	tools/build.py $*

bench: bin/tensor_run bin/bench
	bench/run.sh bin/tensor_run
	bench/stores.sh bin/tensor_run
	bench/views.sh bin/bench
	bench/chunks.sh bin/bench
	bench/stacks.sh bin/bench
	bench/lines.sh bin/bench
	bench/read.sh bin/tensor_run
	bench/commits.sh bin/bench
	bench/check.sh bin/tensor_run
	bench/beside.sh bin/tensor_run

# make ends with 2 where the script's run ends with another status than 0; `./run SCRIPT` ends with that status
run:
	@./run "$(SCRIPT)"

test:
	rt ci
	@$(MAKE) -s bin/tensor_run
	tools/program.sh bin/tensor_run
	examples/with_zarr_python/compare.sh bin/tensor_run

# after `rt ci`, over the libraries that it left
edits:
	tools/edits.py

# each allocation of the program refused in turn; wants a C compiler
faults: bin/tensor_run
	tools/refused_memory.sh bin/tensor_run
