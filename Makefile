# Two commands do all the set-up: `make run` and `make test`. `make bench` measures.
VERSION = 0.1.0

# The library for C, which is the crate yordzepa, and the program, which is the crate desk.
LIBRARY = build/libyordzepa.a
DESK = crates/desk/out/desk

# What they are made of: either one is proved and made again where it is older than one of these.
SOURCES = crates.txt $(wildcard crates/*/src/*.rt crates/*/specs/*.antt)

# A run of rt takes all processors, and a second one in a crate waits for the first.
.NOTPARALLEL:

# The operator's tool.
TOOL_SOURCES = $(wildcard tools/*.c)
TOOL = build/yordzepa
CFLAGS = -O2 -g

# Where `make install` puts the library, its header, the tool and its page. DESTDIR goes before each path.
PREFIX = /usr/local
prefix = $(if $(word 2,$(PREFIX)),$(error PREFIX may not have a space: '$(PREFIX)'),$(abspath $(PREFIX)))
BINDIR = $(prefix)/bin
LIBDIR = $(prefix)/lib
INCLUDEDIR = $(prefix)/include
MANDIR = $(prefix)/share/man
PKGCONFIGDIR = $(LIBDIR)/pkgconfig

.PHONY: run test fuzz bench bench-page libraries tool test-tool install uninstall clean

# Proves the program and what it uses, and runs it on document 01's example.
run: $(DESK)
	$(DESK) <crates/desk/stdin

# The gate: layout, proofs, must-fail edits and the program by `rt ci`, then the tests on what is proved.
test:
	.ci/run

# New lists of calls through the engine and the second program, until interrupted or for so long: `make
# fuzz MINUTES=10`. It prints the seed it begins with (again: `make fuzz SEED=n`) and its progress, and
# stops at the first difference with the shortest list found that shows it and status 1 (make's own is
# 2). `WRONG=LatestFirst` puts a wrong program in the engine's place, to see that happen.
fuzz: libraries
	@cargo run --release --offline --locked --quiet --manifest-path tests/Cargo.toml --features engine --bin fuzz

# The library for C and Rust: build/libyordzepa.a, declared in include/yordzepa.h.
libraries: $(LIBRARY)

# rt proves the crate, and those below it, for it. What rt says is shown only where it fails.
$(LIBRARY): $(SOURCES)
	@mkdir -p $(dir $@) build
	cd crates/yordzepa && rt lib >../../build/library.log 2>&1 || { cat ../../build/library.log; exit 1; }
	cp crates/yordzepa/out/libyordzepa.a $@

# `rt run` proves the program and what it uses, links it and runs it.
$(DESK): $(SOURCES)
	@mkdir -p build
	cd crates/desk && rt run <stdin >../../build/desk.log 2>&1 || { cat ../../build/desk.log; exit 1; }
	@touch $@

# The operator's tool: build/yordzepa. docs/TOOL.md tells how it is used.
tool: $(TOOL)

$(TOOL): $(TOOL_SOURCES) $(wildcard tools/*.h) include/yordzepa.h $(LIBRARY)
	mkdir -p $(dir $@)
	$(CC) -std=c11 -Wall -Wextra -Werror $(CFLAGS) -DVERSION='"$(VERSION)"' -Iinclude -Itools $(TOOL_SOURCES) $(LIBRARY) -o $@

# The tool's page, from what the tool itself tells.
build/yordzepa.1: $(TOOL) tools/man.sh
	sh tools/man.sh $(TOOL) >$@

# A path below the prefix is written as such, so that pkg-config can move it along.
below_prefix = $(patsubst $(prefix)/%,$${prefix}/%,$(1))

install: $(LIBRARY) $(TOOL) build/yordzepa.1
	install -d '$(DESTDIR)$(BINDIR)' '$(DESTDIR)$(PKGCONFIGDIR)' '$(DESTDIR)$(INCLUDEDIR)' '$(DESTDIR)$(MANDIR)/man1'
	install -m 644 $(LIBRARY) '$(DESTDIR)$(LIBDIR)/libyordzepa.a'
	install -m 644 include/yordzepa.h '$(DESTDIR)$(INCLUDEDIR)/yordzepa.h'
	sed -e 's|@PREFIX@|$(prefix)|' -e 's|@LIBDIR@|$(call below_prefix,$(LIBDIR))|' \
		-e 's|@INCLUDEDIR@|$(call below_prefix,$(INCLUDEDIR))|' -e 's|@VERSION@|$(VERSION)|' \
		yordzepa.pc.in >'$(DESTDIR)$(PKGCONFIGDIR)/yordzepa.pc'
	install -m 755 $(TOOL) '$(DESTDIR)$(BINDIR)/yordzepa'
	install -m 644 build/yordzepa.1 '$(DESTDIR)$(MANDIR)/man1/yordzepa.1'

uninstall:
	rm -f '$(DESTDIR)$(LIBDIR)/libyordzepa.a' '$(DESTDIR)$(INCLUDEDIR)/yordzepa.h' \
		'$(DESTDIR)$(PKGCONFIGDIR)/yordzepa.pc' '$(DESTDIR)$(BINDIR)/yordzepa' '$(DESTDIR)$(MANDIR)/man1/yordzepa.1'

# The tool's tests, those that measure time too.
test-tool: tool
	sh tests/tool/run.sh

# The proved functions beside plain Rust, the engine beside the second program, the tool beside its calls: Markdown tables.
bench: libraries tool $(DESK)
	@printf '`%s`; %s, %s processors; %s; %s.\n' "$$(rt version)" "$$(lscpu | sed -n 's/^Model name: *//p')" "$$(nproc)" \
		"$$(rustc --version | cut -d' ' -f1,2)" "$$(date -u +%Y-%m-%d)"
	@cargo run --release --offline --locked --quiet --manifest-path tests/Cargo.toml --features engine --bin bench
	@PYTHONDONTWRITEBYTECODE=1 python3 tests/tool/bench.py

# The same, in place of the figures of docs/BENCHMARKS.md: all that stands below the line "## Figures".
bench-page:
	@figures=$$(mktemp) && $(MAKE) --no-print-directory -s bench >$$figures && \
		sed -i '/^## Figures$$/q' docs/BENCHMARKS.md && { echo; cat $$figures; } >>docs/BENCHMARKS.md; \
		status=$$?; rm -f $$figures; exit $$status

clean:
	rm -rf crates/*/out tests/target build
