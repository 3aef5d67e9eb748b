# The program on its example script, and the gate.
SHELL := /bin/bash
.PHONY: all run test histories bench figures
N ?= 1000000
SEED ?= 1
RUNS ?= 1

all: run

# Proves and builds the program, and runs it on the shipped script, whose comments stand between what it prints.
run:
	@echo "proving and building childsa (some minutes the first time) .."
	@tools/built > /dev/null && tools/tell examples/collision.script

# The program and the independent one, over N histories by SEED.
histories:
	@independent/try $(N) $(SEED)

# Times the library's functions beside those of the independent program, on one core: RUNS=N runs, and with ONLY=WORD the lines that have
# this word. It needs cargo, and is no part of the gate.
bench:
	@log=$$(mktemp); (cd crates/benched && rt lib) > $$log 2>&1 < /dev/null || { cat $$log; rm -f $$log; exit 1; }; rm -f $$log
	@cd bench && RATTLE_C=$$(dirname "$$(readlink -f "$$(command -v rt)")")/../c cargo build --quiet --release --offline
	@taskset -c $$(( $$(nproc) - 1 )) bench/target/release/bench $(RUNS) $(ONLY)

# The figures of docs/PERFORMANCE.md, as they stand there: the machine, and four runs.
figures:
	@tools/figures

# The whole gate: everything proved, the must-fail edits, the programs' output, the tests; then, with the program that this built, the
# scripts of examples/ with the output that is stored beside each, and some histories against the independent program; the
# edits that must be refused before anything runs; and the example in C. An edit that the prover could not read fails it too. The
# very last line is rt's own count.
test:
	@start=$$(date +%s); log=$$(mktemp); \
	rt ci 2>&1 | tee $$log | sed '$$d'; status=$${PIPESTATUS[0]}; \
	if grep -qE '^rt: ok.*, [0-9]+ bad' $$log; then echo "must-fail edits are bad: they show nothing"; status=1; fi; \
	examples/try || status=1; \
	independent/try 20000 1 || status=1; \
	refused/try || status=1; \
	c/try || status=1; \
	echo "the gate took $$(( $$(date +%s) - start )) s"; \
	if [ $$status -eq 0 ]; then tail -n 1 $$log; else echo "the gate FAILED"; fi; \
	rm -f $$log; exit $$status
