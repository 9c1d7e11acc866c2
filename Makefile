# `example`, `build` and `test` are short names for the kit's commands; nothing is built here that they don't build.
# `install` and `dist` take the program that is there, and build it only where there is none.

PREFIX ?= /usr/local
# Where a package is put together; empty where the program is installed in its place.
DESTDIR ?=
# In an unpacked archive the program stands beside this file.
PROGRAM ?= $(if $(wildcard navd),navd,crates/navd/out/navd)
# The second program, where `many` has built it; it is installed and packed only then.
MANY ?= $(firstword $(wildcard navmany crates/navmany/out/navmany))

# The newest version and its date, as CHANGELOG.md tells them.
VERSION := $(shell sed -n 's/^.. \([0-9][^ ]*\) (.*)$$/\1/p' CHANGELOG.md | head -n 1)
DATE := $(shell sed -n 's/^.. [0-9][^ ]* (\(.*\))$$/\1/p' CHANGELOG.md | head -n 1)

SHARE = $(PREFIX)/share
BASH_COMPLETION = $(SHARE)/bash-completion/completions/navd
ZSH_COMPLETION = $(SHARE)/zsh/site-functions/_navd
FISH_COMPLETION = $(SHARE)/fish/vendor_completions.d/navd.fish
UNIT = $(SHARE)/systemd/user/navd.service
INSTALLED = $(PREFIX)/bin/navd $(SHARE)/man/man1/navd.1 $(SHARE)/man/man5/navd-protocol.5 \
    $(if $(MANY),$(PREFIX)/bin/navmany $(SHARE)/man/man1/navmany.1) $(BASH_COMPLETION) $(ZSH_COMPLETION) $(FISH_COMPLETION) $(UNIT)

ARCHIVE = navd-$(VERSION)-$(shell uname -s -m | tr 'A-Z ' 'a-z-')

.PHONY: kit example build many test statuses users costs install uninstall dist

kit:
	@command -v rt > /dev/null || { echo "the kit's command rt isn't on the PATH; README.md says what it is, under Get it"; exit 1; }

# Compiles the program without its proofs and answers the stored session.
example: kit
	cd crates/navd && rt try -- run < stdin

# How many crates `build` proves side by side. Each takes a processor and 1 to a few gigabytes of memory.
JOBS ?= $(shell nproc)

# Proves all that the program stands on, crates side by side, builds it as crates/navd/out/navd, and answers the stored
# session. From nothing it proves what the gate proves, but for crates of tests, and neither tests nor
# wrong bodies; what an earlier call proved and nothing has changed is kept. Each crate waits for those below it, so it takes
# no less than the longest chain of them.
build: kit
	cd crates/navd && rt all check --jobs $(JOBS)
	cd crates/navd && rt run -- run < stdin

# The same for the second program, which serves many clients on one thread, as crates/navmany/out/navmany; it is run with
# words that are no such words, by which it ends with status 2.
many: kit
	cd crates/navmany && rt all check --jobs $(JOBS)
	cd crates/navmany && { rt run -- 0 1 1; [ $$? -eq 2 ]; }

test: kit
	rt ci

# Runs the program that `build` leaves with words, inputs, outputs and memory that bring about each of its statuses, and
# with clients at its port.
statuses: build
	python3 bench/statuses.py
	python3 bench/clients.py

# Runs what the documents print, the examples and the installation, as people use them.
users: $(PROGRAM)
	python3 bench/users.py $(PROGRAM)

# Counts the instructions of fixed sessions, and compares them with what is kept, as the gate does.
costs: $(PROGRAM)
	python3 bench/costs.py $(PROGRAM)

crates/navd/out/navd:
	$(MAKE) build

install: $(PROGRAM)
	@case "$(PREFIX)" in *[[:space:]]*) echo "PREFIX has a blank: $(PREFIX)"; exit 1;; /*) ;; *) echo "PREFIX isn't a path from /: $(PREFIX)"; exit 1;; esac
	install -d $(foreach file,$(INSTALLED),"$(DESTDIR)$(dir $(file))")
	install -m 755 $(PROGRAM) "$(DESTDIR)$(PREFIX)/bin/navd"
	sed 's/@VERSION@/$(VERSION)/; s/@DATE@/$(DATE)/' share/man/navd.1 > "$(DESTDIR)$(SHARE)/man/man1/navd.1"
	sed 's/@VERSION@/$(VERSION)/; s/@DATE@/$(DATE)/' share/man/navd-protocol.5 > "$(DESTDIR)$(SHARE)/man/man5/navd-protocol.5"
	if [ -n "$(MANY)" ]; then \
	    install -m 755 "$(MANY)" "$(DESTDIR)$(PREFIX)/bin/navmany" && \
	    sed 's/@VERSION@/$(VERSION)/; s/@DATE@/$(DATE)/' share/man/navmany.1 > "$(DESTDIR)$(SHARE)/man/man1/navmany.1" && \
	    chmod 644 "$(DESTDIR)$(SHARE)/man/man1/navmany.1"; fi
	install -m 644 share/completions/navd.bash "$(DESTDIR)$(BASH_COMPLETION)"
	install -m 644 share/completions/_navd "$(DESTDIR)$(ZSH_COMPLETION)"
	install -m 644 share/completions/navd.fish "$(DESTDIR)$(FISH_COMPLETION)"
	sed 's,@BINDIR@,$(PREFIX)/bin,' share/systemd/navd.service > "$(DESTDIR)$(UNIT)"
	chmod 644 "$(DESTDIR)$(SHARE)/man/man1/navd.1" "$(DESTDIR)$(SHARE)/man/man5/navd-protocol.5" "$(DESTDIR)$(UNIT)"

uninstall:
	rm -f $(foreach file,$(INSTALLED) $(PREFIX)/bin/navmany $(SHARE)/man/man1/navmany.1,"$(DESTDIR)$(file)")

# Leaves out/navd-VERSION-SYSTEM.tar.gz: the program with what `install` needs, the documents, the examples and the client.
dist: $(PROGRAM)
	rm -rf "out/$(ARCHIVE)"
	install -d "out/$(ARCHIVE)"
	install -m 755 $(PROGRAM) "out/$(ARCHIVE)/navd"
	if [ -n "$(MANY)" ]; then install -m 755 "$(MANY)" "out/$(ARCHIVE)/navmany"; fi
	cp -R Makefile README.md CHANGELOG.md docs examples share clients "out/$(ARCHIVE)"
	find "out/$(ARCHIVE)" -name __pycache__ -prune -exec rm -rf {} +
	tar -C out -czf "out/$(ARCHIVE).tar.gz" "$(ARCHIVE)"
	rm -rf "out/$(ARCHIVE)"
	@echo "out/$(ARCHIVE).tar.gz"
