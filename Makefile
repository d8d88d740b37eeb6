# `make run` replays a recorded run, and `make run TRACE=file` another one. `make test` is the gate.
.PHONY: run test archive library compare soak embed bench

TRACE ?= examples/whole-case.trace
CALLS ?= 1000000
MINUTES ?= 10

CARGO = cargo run --release --offline --quiet --manifest-path rust/Cargo.toml

# The program is proved first, where that is still to be done: some minutes at the first time.
run:
	@(cd crates/replay_main && rt run) <$(TRACE)

test:
	@tests/gate

# The verified library for other languages: proved, where that is still to be done, and compiled.
archive:
	@cd crates/quagfeather && rt lib >&2

# The same, and where it is.
library: archive
	@echo crates/quagfeather/out/libquagfeather.a

# The verified library and the independent receiver on generated calls, the same ones each time.
compare: archive
	@$(CARGO) -p compare -- calls $(CALLS)

# The same on other calls, for MINUTES minutes.
soak: archive
	@$(CARGO) -p compare -- soak $(MINUTES)

# The examples of embedding, in C and in Rust.
embed: archive
	@tests/embed

# Both receivers' times on the same input, in one run: a text for docs/PERFORMANCE.md.
bench: archive
	@$(CARGO) -p bench
