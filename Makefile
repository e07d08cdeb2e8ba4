# The commands of README.md.
archive := target/staticlib/libsearchroom.a
counts := target/staticlib/libcount_calls.a
# without what rt makes in crates/NAME/out
sources := crates.txt $(shell find crates -name out -prune -o '(' -name '*.rt' -o -name '*.antt' ')' -print)
# where Debian's packages put the sources of crates, as .cargo/config.toml says
registry := /usr/share/cargo/registry

# said before a recipe that proves or compiles the engine
define need_rt
@command -v rt >/dev/null || { \
  echo "there is no command rt: it is the Rattle kit, which proves and compiles the engine."; \
  echo "Put the kit's rt into PATH: docs/ASSUMPTIONS.md names the kit, README.md, \"Two commands\", what else is needed."; \
  exit 1; } >&2
endef

# consult on the example parish: proves and builds it first
parish: target/bin/consult
	@cd examples/parish && ../../target/bin/consult

# rt also runs what it has built, here where the three files are not: that register, a refusal, is let go
target/bin/consult: $(sources)
	$(need_rt)
	cd crates/consult && rt run > /dev/null
	install -D crates/consult/out/consult $@

# the archive that C and the Rust crate searchroom link
library: $(archive)

# the archive of the counts alone, for the benchmark and the tests
counts: $(counts)

# a library of Rattle's and an archive are two crates: rt builds NAME_c, and C links it as libNAME.a
target/staticlib/lib%.a: $(sources)
	$(need_rt)
	cd crates/$*_c && rt lib
	install -D -m 644 crates/$*_c/out/lib$*_c.a $@

# the desk, for people, as target/bin/searchroom; what it needs beside the engine is looked for before that is proved
desk: desk_needs $(archive)
	cargo build --release --offline --quiet --manifest-path rust/Cargo.toml --target-dir rust/target -p desk
	install -D rust/target/release/searchroom target/bin/searchroom

desk_needs:
	@command -v cargo >/dev/null || { \
	  echo "there is no command cargo: install Rust 1.89 or later (README.md, \"Two commands\")"; exit 1; } >&2
	@for crate in clap csv serde_json; do \
	  ls -d $(registry)/$$crate-[0-9]* >/dev/null 2>&1 || { \
	    echo "no source of the crate $$crate: apt-get install librust-clap-dev librust-csv-dev librust-serde-json-dev"; \
	    exit 1; } >&2; \
	done

# the whole test run
test: kit
	.ci/run

kit:
	$(need_rt)

# header, archive and pkg-config file under PREFIX
install: $(archive)
	$(MAKE) -C include install

# the desk under PREFIX
install-desk: PREFIX ?= /usr/local
install-desk: desk
	install -D target/bin/searchroom $(DESTDIR)$(PREFIX)/bin/searchroom

.PHONY: parish library counts desk desk_needs test kit install install-desk
