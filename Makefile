PLAN ?= samples/p.plan
# Passed through the environment, so that the shell takes any name as one word.
export PLAN WAY FROM TO

.PHONY: list carry test bench fuzz mutants wrong samples fmt

# Proves and builds the listing program, unless that is already done, and lists a plan file.
list:
	@problem=; \
	if test -z "$$PLAN"; then problem='PLAN is empty; name a plan file, as in PLAN=samples/p.plan'; \
	elif test ! -e "$$PLAN"; then problem="there is no file '$$PLAN'"; \
	elif test -d "$$PLAN"; then problem="'$$PLAN' is a directory"; \
	elif test ! -r "$$PLAN"; then problem="'$$PLAN' cannot be read"; \
	fi; \
	if test -n "$$problem"; then printf 'make list: %s\n' "$$problem" >&2; exit 1; fi
	@mkdir -p target
	@tools/build list_plan >target/list.log 2>&1 || { tail -n 20 target/list.log >&2; exit 1; }
	@target/bin/list_plan <"$$PLAN"

# Converts the plan file FROM to the other edition, as the file TO: WAY=forward to the second, WAY=back to the first. The new
# file is written beside TO and takes its name only when it is complete, so that TO stays as it was if the plan is refused.
carry:
	@problem=; \
	if test "$$WAY" != forward && test "$$WAY" != back; then problem='say WAY=forward or WAY=back'; \
	elif test -z "$$FROM"; then problem='FROM is empty; name a plan file, as in FROM=samples/p.plan'; \
	elif test ! -e "$$FROM"; then problem="there is no file '$$FROM'"; \
	elif test -d "$$FROM"; then problem="'$$FROM' is a directory"; \
	elif test ! -r "$$FROM"; then problem="'$$FROM' cannot be read"; \
	elif test -z "$$TO"; then problem='TO is empty; name the file to be written'; \
	elif test -d "$$TO"; then problem="'$$TO' is a directory"; \
	fi; \
	if test -n "$$problem"; then printf 'make carry: %s\n' "$$problem" >&2; exit 1; fi
	@mkdir -p target
	@tools/build carry_plan >target/carry.log 2>&1 || { tail -n 20 target/carry.log >&2; exit 1; }
	@tools/carry "$$WAY" "$$FROM" "$$TO"

# Everything that is proved and tested.
test:
	@bash .ci/run

# Compares the speed of the proved library with tuned and with plain Rust that do the same work (docs/BENCHMARKS.md).
# `make bench ONLY='list insert'` measures the rows with one of these words in their name.
bench:
	@cargo run --release --offline --quiet --manifest-path tests/Cargo.toml --bin bench -- $(ONLY)

# Compares the library with the second implementation on random files and sequences of session operations, for
# MAIPLUR_SECONDS seconds (10 if unset). Inputs on which they differ go to tests/corpus.
fuzz:
	@cargo run --release --offline --quiet --manifest-path tests/Cargo.toml --bin fuzz

# Makes small faults in the second implementation, one at a time, and names the test that notices each (tests/mutants). All
# of them take an hour or less; `make mutants ONLY='timing/ map/'` tries those with one of these in their name.
mutants:
	@cargo run --release --offline --quiet --manifest-path tests/Cargo.toml --bin mutants -- $(ONLY)

# Tries all wrong programs, in a copy: the prover must refuse each (docs/WRONG_PROGRAMS.md). `make test` tries only some of
# them. All of them take a while; `make wrong ONLY='plan_file text'` tries those of some crates.
wrong:
	@tools/wrong $(ONLY)

# Rewrites samples/.
samples:
	cargo run --release --quiet --manifest-path tests/Cargo.toml --bin samples samples

fmt:
	@for crate in crates/*; do (cd $$crate && rt fmt) || exit 1; done
