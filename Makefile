# make alone prints what there is. What is made goes to build/, to target/ and to each crate's out/, which git ignores.
LIB := target/staticlib/libosdp.a
READERS := target/staticlib/libbench_read.a
TEXTS := target/staticlib/libtext.a
# quick ones first
CHECKS := proof-map rows lib-selftest inputs names lib example demo compare mutants bench-selftest bench

.PHONY: help
help:
	@echo "make run          proves and builds inspect, and shows the sample payloads with it"
	@echo "make inputs       inspect on bad lines, bad files, every code, the longest payloads, frames, streams, and many lines"
	@echo "make test         the gate: proves every crate, tries the must-fail edits, runs the programs (.ci/run)"
	@echo "make lib          proves osdp_c and writes $(LIB); the header is include/osdp.h; holds its stack, outside symbols and writable data to limits"
	@echo "  lib-selftest      whether that last check can fail"
	@echo "make example      builds and runs the batch of examples/c with gcc, and with clang if there is one"
	@echo "make demo         builds and runs the round of examples/c, a controller and its readers over a pseudo-terminal, and holds README.md to its sheet"
	@echo "make compare      against the original Rust: compare-vectors, then compare-calls"
	@echo "  compare-vectors   the Rust's answers to generated cases, and models' to frames and streams, replayed by the program vectors"
	@echo "  compare-calls     the six C calls, in one process with the Rust"
	@echo "make mutants      whether compare-calls notices what is wrong: archives with one thing wrong each"
	@echo "make bench        times and instructions against the original Rust, to build/bench"
	@echo "  bench-selftest    whether wrong calls and missed targets are noticed"
	@echo "make performance  as make bench, and writes docs/PERFORMANCE.md and docs/performance.svg"
	@echo "make proof-map    whether docs/PROOF-MAP.md is right and whole, and a run reaches every public call; and whether this check can fail"
	@echo "make names        whether the names of all codes are the Rust's: definitions, code, and what inspect shows; and whether this check can fail"
	@echo "make rows         whether inspect, header and README.md say of the refusal table what tools/rows.txt says; and whether this check can fail"
	@echo "make check-all    all of these in turn, up to the first that fails: $(CHECKS)"
	@echo "make clean        removes what is in build/"
	@echo
	@echo "RUST=FOLDER  where the original Rust is (Quantumlyy/osdp-rs at 8e2b7c7df1); by default ../shared/docs/src next to this repository"
	@echo "CHANGED=yes  goes on although the Rust's files are not those of tools/oracle/sources.sha256"
	@echo "BESIDE=ARCHIVE  another build of the library, which bench measures in the same rounds; RUNS=NUMBER  how many runs bench makes (15)"
	@echo "SEED=NUMBER  another seed for compare; SCALE=NUMBER  how many cases compare-vectors makes by chance (1000)"

ifeq ($(findstring $(CURDIR)/build/lock:,$(ALONE)),)

# The goals are made by a make that holds the lock of build/ up to its end; a second run at the same time is refused.
GOALS := $(filter-out help,$(MAKECMDGOALS))
.PHONY: $(GOALS)
$(firstword $(GOALS)):
	@tools/alone.py $(MAKE) --no-print-directory $(GOALS)
$(wordlist 2,$(words $(GOALS)),$(GOALS)): $(firstword $(GOALS)) ; @:

else

.PHONY: arguments oracle run inputs lib lib-selftest example demo test compare compare-vectors compare-calls mutants
.PHONY: bench bench-selftest performance proof-map names rows check-all clean
.NOTPARALLEL:

# RUST and the others come from the command line of make, or from the environment; make hands them on in the environment.
arguments:
	@tools/arguments.py RUST SCALE SEED BESIDE RUNS CHANGED

# Before anything is proved: it fails if the Rust's files are not those that are expected.
oracle: arguments
	tools/oracle/build.sh "$$RUST"

# program.sh proves inspect and what it uses, builds it, and compares what it says of its sample with the stored output.
run:
	tools/program.sh inspect
	tools/inspect/run.sh

inputs:
	tools/program.sh inspect
	tools/inspect/inputs.py crates/inspect/out/inspect

lib: $(LIB)
	tools/lib/check.py $(LIB)

lib-selftest:
	tools/lib/check.py --selftest

# What rt reads: the crates without their folders out/.
SOURCES = crates.txt $(shell find $(1) -name out -prune -o \( -name '*.rt' -o -name '*.antt' \) -print)

$(LIB): $(call SOURCES,crates)
	tools/archive.sh osdp_c $@
	@touch $@

$(READERS): $(call SOURCES,crates)
	tools/archive.sh bench_read $@
	@touch $@

$(TEXTS): tools/bench/printable.sh $(call SOURCES,crates/payload_util crates/text)
	tools/bench/printable.sh $@
	@touch $@

example: $(LIB)
	$(MAKE) --no-print-directory -C examples/c

demo: $(LIB)
	$(MAKE) --no-print-directory -C examples/c demo

test:
	.ci/run

compare: compare-vectors compare-calls
	@echo "both runs passed: $$(cat build/oracle/done); $$(tail -n 1 build/compare/said)"

compare-vectors: oracle
	tools/program.sh vectors
	tools/oracle/compare.sh "$$RUST" "$$SCALE" "$$SEED"

compare-calls: oracle $(LIB)
	tools/compare/run.sh "$$RUST" "$$SEED"

mutants: oracle
	tools/mutants/run.sh "$$RUST"

bench: oracle $(LIB) $(READERS) $(TEXTS)
	tools/bench/run.sh $${BESIDE:+--beside "$$BESIDE"} "$$RUST"

bench-selftest: oracle $(LIB) $(READERS) $(TEXTS)
	tools/bench/run.sh --selftest "$$RUST"

performance: oracle $(LIB) $(READERS) $(TEXTS)
	@[ -z "$$BESIDE" ] || { echo "make performance takes no BESIDE: the page is of this build" >&2; exit 2; }
	tools/bench/run.sh --docs "$$RUST"

proof-map:
	tools/proof_map.py --selftest

names: oracle
	tools/program.sh inspect
	tools/names.py --selftest "$$RUST"
	tools/names.py "$$RUST"

rows:
	tools/rows.py --selftest
	tools/rows.py

check-all: arguments
	@tools/check_all.sh $(CHECKS)

clean:
	find build -mindepth 1 ! -path build/lock -delete

endif
