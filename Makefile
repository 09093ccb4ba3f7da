# A target's line below has, after '##', what `make help` says of it; help comes first, so bare `make` says it too.
# `make soak` takes CASES (linked into one process), SERVED (called in C, through a server) and SEED. `make bench` takes BEFORE, an
# earlier archive or a revision: it adds the ratio of the time now to the time then; the archive of a revision is built and proved first, which takes
# minutes.
.PHONY: help demo test install uninstall soak bench clean

# where `make install` puts things, and the archive that it takes, which tools/native writes
PREFIX ?= /usr/local
archive = target/native/libdelampuk.a

help: ## says what there is
	@awk -F ':.*## ' '/^[a-z]+:.*## / { printf "make %-10s %s\n", $$1, $$2 }' Makefile

demo: ## proves what it shows, then shows it: a lesson with mute pressed on an escape, figures, bit layouts
	@sh tools/built demo figures layouts
	@sh tools/run demo
	@echo
	@sh tools/run figures
	@sh tools/run layouts

test: ## runs every check; the last line is 'N passed, M failed'
	@sh tools/test

install: ## installs header, archive, pkg-config file, the command delampuk and, on x86-64, programs (PREFIX, by default /usr/local; DESTDIR)
	@sh tools/native
	@PREFIX="$(PREFIX)" DESTDIR="$(DESTDIR)" sh tools/install $(archive)

uninstall: ## removes what make install laid down (PREFIX, DESTDIR)
	@PREFIX="$(PREFIX)" DESTDIR="$(DESTDIR)" sh tools/install remove

soak: ## compares the library with the model in Rust for longer (CASES, SERVED, SEED)
soak: CASES ?= 1000000
soak: SERVED ?= 100000
soak: compare = cargo test --offline --release --manifest-path rust/Cargo.toml -p differential
soak:
	@sh tools/native
	@sh tools/serve build
	@CASES=$(CASES) $(compare) --test linked -- --nocapture
	@CASES=$(SERVED) $(compare) --test server -- --nocapture

bench: ## prints the library's speed beside that of other implementations (BEFORE: an earlier archive or revision)
bench: of_bench = --quiet --offline --release --manifest-path rust/Cargo.toml -p bench --features contestants
bench:
	@sh tools/native
	@before=; [ -z "$(BEFORE)" ] || before=$$(sh bench/before "$(BEFORE)") || exit 1; export DELAMPUK_BEFORE=$$before; \
		cargo test $(of_bench) --test all && cargo run $(of_bench)

clean: ## removes what was made: target/, rust/target/ and what rt keeps in out/ of each crate
	@rm -rf target rust/target crates/*/out
