# The commands of the README, and what they are made of. `make test` is the merge gate.
.PHONY: help test plan report look library install uninstall soak bench
.SILENT: help test plan report look library install uninstall

CONSOLE = --offline --manifest-path console/Cargo.toml
COMMAND = console/target/release/dezghuri
LIBRARY = build/libconsole.a
PROGRAM = build/plan
PREFIX = /usr/local
CRATES := crates.txt $(shell find crates -path '*/out' -prune -o \( -name '*.rt' -o -name '*.antt' \) -print)

# What a bare `make` does: the gate takes twenty minutes or more, and nobody should start it by chance.
help:
	echo 'make plan      plans the sample cluster of five boxes, then the same cluster after one box was replaced'
	echo 'make report    makes the page that shows the second plan, build/home.html'
	echo 'make library   proves the C functions and puts the static library that programs link into build/'
	echo 'make test      proves every crate, tries the edits that must be refused, runs all tests'
	echo 'make soak      compares many more cases with the listing and the parser than `make test` does'
	echo 'make bench     times the planner beside plain Rust'
	echo 'make look      takes pictures of report pages in headless Chromium, to be looked at'
	echo 'make install   installs command, program, library, header, manual and completions (PREFIX, DESTDIR); make uninstall removes them'

test:
	sh tools/test.sh

# Plans the sample, then the same cluster after one of its boxes was replaced: its text changes, as an owner's does, and its history stands beside it.
plan: $(LIBRARY)
	cargo build --release --quiet $(CONSOLE)
	cp samples/home.txt build/home.txt
	$(COMMAND) plan build/home.txt --out build/home.layout --replace
	echo
	cp samples/home-next.txt build/home.txt
	$(COMMAND) plan build/home.txt --former build/home.layout --out build/home-next.layout --replace

# The page of the second plan, with what moves from the first.
report: plan
	echo
	$(COMMAND) report build/home.txt build/home-next.layout --former build/home.layout --out build/home.html

# Pictures of pages at several widths, light, dark and printed; they are for eyes, and no part of the gate.
look: $(LIBRARY)
	cargo build --release --quiet $(CONSOLE)
	sh tools/look.sh

library: $(LIBRARY)
	echo '$(LIBRARY) is made.'

# Compares a hundred times as many cases as `make test` does; SOAK=N for N times as many, SEED=N for others.
soak: $(LIBRARY)
	cargo test --release $(CONSOLE) --test compare -- --ignored

# Times the proved planner beside plain Rust.
bench: $(LIBRARY)
	cargo bench $(CONSOLE) --bench plan

# What programs and owners use, below PREFIX; DESTDIR stands for the root of the system.
install: $(LIBRARY) $(PROGRAM)
	cargo build --release --quiet $(CONSOLE)
	PREFIX='$(PREFIX)' DESTDIR='$(DESTDIR)' sh tools/install.sh install

uninstall:
	PREFIX='$(PREFIX)' DESTDIR='$(DESTDIR)' sh tools/install.sh uninstall

# The program `plan`, proved and compiled; again only when a crate has changed. The library comes first: for it all crates are proved several at a time.
$(PROGRAM): $(CRATES) | $(LIBRARY)
	@mkdir -p build
	@echo 'Compiling the program plan (see build/program.log).'
	@sh tools/program.sh >build/program.log 2>&1 || { cat build/program.log; exit 1; }

# The C functions, proved and compiled; again only when a crate has changed.
$(LIBRARY): $(CRATES)
	@mkdir -p build
	@echo 'Proving the planner and compiling it: some minutes the first time (build/library.log has all that is said).'
	@sh tools/library.sh
