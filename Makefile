# The two commands: `make demo` runs the main job, `make test` passes.
.PHONY: help demo tool build library test rust-test bench have-cargo

TOOL = rust/target/release/perchmellow

help:
	@echo "make demo        a card of 16 ticks pays a post on the terminal, a line a round"
	@echo "make tool        build perchmellow, the bench tool, and say where it is"
	@echo "make test        prove everything, try the must-fail edits, run the programs (some minutes)"
	@echo "make rust-test   the Rust tests: the proved library beside plain Rust, and the bench tool"
	@echo "make bench       time the two side by side; make bench BENCH=--markdown prints tables to paste"

demo: build
	@$(TOOL) demo

tool: build
	@echo "the bench tool is $(TOOL); '$(TOOL) --help' says what it does"

build: library
	@cd rust && cargo build --quiet --release --offline -p tool

# Before cargo, which would keep to itself what is said while the library is proved.
library: have-cargo
	@tools/staticlib

test:
	@.ci/run

rust-test: library
	@cd rust && cargo test --release --offline

bench: library
	@cd rust && cargo build --quiet --release --offline -p bench
	@rust/target/release/bench $(BENCH)

have-cargo:
	@command -v cargo >/dev/null 2>&1 || { \
	  echo "perchmellow: cargo is not on the PATH; the Rust wrapper, the bench tool, the tests and the benchmark need Rust 1.89 or later." >&2; \
	  exit 2; }
