# make test: the gate. make run: image E through program `merge`. make bindings: C and Rust over the static library. make bench: against the listed Rust. make fuzz: a million random and damaged inputs, and more. make layers: docs/LAYERS.md.
.PHONY: test run oracle fmt library bindings bench fuzz layers
SHELL := /bin/bash

# Everything that the gate runs: `rt ci`, whose last line is `N passed, M failed`, and the oracle's tests beside it.
test:
	@.ci/run

# Lays out every Rattle and antt file; the gate refuses another layout.
fmt:
	@for crate in crates/*/; do (cd "$$crate" && rt fmt) || exit 1; done

# The Rust as judge: built and tested where cargo is there.
oracle:
	@if command -v cargo >/dev/null 2>&1; then bash oracle/test.sh; else echo "oracle: no cargo here, not built and not tested"; fi

# The command that does the main job: proves and links program `merge`, and gives it image E with its query.
run:
	@mkdir -p target
	@(cd crates/merge && rt run < ../../examples/E.query 2> ../../target/run.log) || { cat target/run.log; exit 1; }

# The picture of the layers.
layers:
	awk -f docs/layers.awk crates.txt > docs/LAYERS.md

# The static library, proved, under the name that C and Rust link.
library:
	cd crates/tariff_c && rt lib
	mkdir -p target/staticlib
	cp crates/tariff_c/out/libtariff_c.a target/staticlib/libtariff.a

# The merge for other languages: the static library, its C test, the safe Rust crate and its tests. Not part of the gate, which proves the same crates.
bindings: library
	cc -std=c11 -Wall -Wextra -Werror -O2 -o target/staticlib/test bindings/c/test.c target/staticlib/libtariff.a
	target/staticlib/test
	cd bindings && cargo test --release --offline --quiet

# The listed Rust and the static library on the same queries, in one process; then the memory of both; then what the test of an image costs by its literals, what a member's children cost as they arrive, and what a card costs, written and read, with its stack.
bench: library
	cd bindings && cargo run --release --offline --quiet -p bench --bin bench
	cd bindings && cargo run --release --offline --quiet -p bench --bin memory
	cd bindings && cargo run --release --offline --quiet -p bench --bin judging
	cd bindings && cargo run --release --offline --quiet -p bench --bin streaming
	cd bindings && cargo run --release --offline --quiet -p bench --bin printing

# A million random and damaged inputs for the static library, 20,000 queries through both callers, with graphs at the limits of both, 10,000 queries both ways round, at budgets about what they spend, a million children in lists, narrowed after each, and 100,000 terms written and read back, as many texts read and lines written; each answer and buffer held to the promises and to the model.
fuzz: library
	cd bindings && cargo run --release --offline --quiet -p bench --bin fuzz 1 1000000
	cd bindings && cargo run --release --offline --quiet -p bench --bin callers 1 20000
	cd bindings && cargo run --release --offline --quiet -p bench --bin turned 1 10010
	cd bindings && cargo run --release --offline --quiet -p bench --bin children 1 1000000
	cd bindings && cargo run --release --offline --quiet -p bench --bin cards 1 100000
