.PHONY: help test changed demo prove lib pairing bench edit-cost soak soak-incremental test-memory figures

# Cargo on the agent's package; what it builds goes below target/.
CARGO = CARGO_TARGET_DIR=target/agent cargo
PACKAGE = --manifest-path agent/Cargo.toml --offline
LIBRARY = target/staticlib/libpairing.a
# What rt builds the library for, by the last line of its check.
CPU = x86-64-v2

# this list, made of the comments above the targets
help:
	@awk '/^# / { line = substr($$0, 3) } /^$$/ { line = "" } \
	    /^[a-z-]+:/ && line { sub(/:.*/, ""); printf "make %-16s %s\n", $$0, line; line = "" }' $(firstword $(MAKEFILE_LIST))

# every proof, must-fail edit, program, Rust test and C test; the last line is 'N passed, 0 failed'
test:
	@tools/test.sh

# proofs, must-fail edits and programs of the crates that differ from origin/main, or of CRATES="a b", and of those above them
changed:
	@tools/changed.sh $(CRATES)

# a scanner and a depot pair, from the Rust agent
demo: lib
	@$(CARGO) run $(PACKAGE) --release --quiet --example demo

# every proof, over what earlier checks kept, and nothing else
prove:
	rt all check

# the proved library for C and Rust, target/staticlib/libpairing.a; what has not changed is not proved again
lib:
	@tools/lib.sh

# the command line: target/agent/release/pairing
pairing: lib
	@$(CARGO) build $(PACKAGE) --release --quiet --bin pairing
	@echo "The command line is target/agent/release/pairing."

# the digests beside Rust loops, stretch and loads beside C++'s generator, pushes in a row beside those by value, an edit beside the digest
bench: lib
	RUSTFLAGS='-C target-cpu=$(CPU)' $(CARGO) bench $(PACKAGE) --bench digests
	@mkdir -p target/bench
	c++ -std=c++17 -Wall -Wextra -Werror -O3 -Iinclude bench/stretch.cpp $(LIBRARY) -o target/bench/stretch
	target/bench/stretch
	cd crates/bench_streams && rt lib >../../target/bench/streams.log
	c++ -std=c++17 -Wall -Wextra -Werror -O3 -Iinclude bench/streams.cpp $(LIBRARY) \
	    crates/bench_streams/out/libbench_streams.a -o target/bench/streams
	target/bench/streams
	c++ -std=c++17 -Wall -Wextra -Werror -O3 -Iinclude bench/incremental.cpp $(LIBRARY) -o target/bench/incremental
	target/bench/incremental

# instructions of an edit of a short message and of the longest, by valgrind; fails above 2 in 100 apart
edit-cost: lib
	@mkdir -p target/bench
	cc -std=c11 -Wall -Wextra -Werror -O2 -Iinclude bench/edit_once.c $(LIBRARY) -o target/bench/edit_once
	bench/edit_instructions.sh

# ten million random calls against an independent implementation, for ten minutes at most
soak: lib
	$(CARGO) test $(PACKAGE) --release --test soak -- --ignored --nocapture

# the same with incremental digests among the calls
soak-incremental: lib
	$(CARGO) test $(PACKAGE) --release --test incremental_soak -- --ignored --nocapture

# the C tests with sanitizers, the C tests and most Rust tests under valgrind; fails on any error
VALGRIND = valgrind --quiet --error-exitcode=1 --leak-check=full --errors-for-leak-kinds=definite
C_TEST = cc -std=c11 -Wall -Wextra -Werror -g -Iinclude
test-memory: export PAIRING_RANDOM_CALLS = 20000
test-memory: export CARGO_TARGET_X86_64_UNKNOWN_LINUX_GNU_RUNNER = $(VALGRIND)
test-memory: lib
	@mkdir -p target/tests
	set -e; for test in c_interface c_incremental; do \
	    $(C_TEST) tests/$$test.c $(LIBRARY) -fsanitize=address,undefined -o target/tests/$${test}_sanitized; \
	    target/tests/$${test}_sanitized; \
	    $(C_TEST) tests/$$test.c $(LIBRARY) -o target/tests/$${test}_memory; \
	    $(VALGRIND) target/tests/$${test}_memory; \
	done
	$(CARGO) test $(PACKAGE) --release --tests -- --show-output --skip all_keys::

# proves every crate from nothing and writes the table at the end of docs/CLAIMS.md
figures:
	tools/figures.sh
