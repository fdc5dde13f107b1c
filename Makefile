# Rattle's command `rt` must be on the PATH (README.md, "What you need").

PROGRAM := crates/raftreplay/out/raftreplay
LOG := examples/one-region.log
DRAWN := $(wildcard docs/*.svg)

.PHONY: all try build test cases trycases crate specs pictures clean

# Proves the program's crates, builds it and replays an example.
all:
	@python3 tools/progress.py
	@echo "raftreplay fold < $(LOG)"
	@$(PROGRAM) fold < $(LOG)

# Builds the program without proofs and replays an example, or another log: make try LOG=FILE.
try:
	@echo "rt try builds without proofs, in about two minutes, and then folds $(LOG)" >&2
	@log=$$(realpath $(LOG)) && cd crates/raftreplay && rt try -- fold < "$$log"

# Proves the program's crates and builds it.
build:
	cd crates/raftreplay && rt run -- fold < ../../examples/one-region.log >/dev/null

# What a change must pass.
test:
	bash .ci/run

# The worked cases and the examples alone, on the built program.
cases: build
	python3 tests/run.py $(PROGRAM)

# The worked cases before any proof: their outputs, but not their statuses.
trycases:
	cd crates/raftreplay && rt try --seconds 600 --cases ../../tests/cases

# All that one crate must pass, over what earlier checks kept: make crate C=rs_region.
crate:
	@test -d "crates/$(C)/src" || { echo "make crate C=NAME: there is no crate '$(C)'"; exit 2; }
	cd crates/$(C) && rt check && rt test
	rt must-fail $(C)
	cd crates/$(C) && rt fmt && rt tidy

# The list of all files of definitions.
specs:
	python3 tools/specs.py

# The pictures in docs/, each of the example of its name; the program must be built.
pictures: $(DRAWN:docs/%.svg=picture-%)

picture-%:
	$(PROGRAM) fold < examples/$*.log | python3 tools/lineage.py examples/$*.log > docs/$*.svg

clean:
	rm -rf crates/*/out
