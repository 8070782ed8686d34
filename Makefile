# filser: see README.md. The toolchain's command `rt` has to be on the PATH.

PREFIX ?= /usr/local
# Where Python looks for packages below PREFIX; if it looks nowhere there, what /usr has.
PYTHON_FOLDER ?= $(shell python3 -c 'import sys; at = sys.argv[1]; print(next((it for it in sys.path \
	if it.startswith(at + "/") and it.endswith("-packages")), at + "/lib/python3/dist-packages"))' $(PREFIX))

.PHONY: help try quick build run test program-tests wrong-bodies install install-clients

help:
	@echo 'make try      a first session with the program, unproved: a minute'
	@echo 'make quick    what can be checked without a proof: layout, names, edits, and the tests of what changed'
	@echo 'make build    prove and build the program, as bin/filser'
	@echo 'make run      the same, and then a first run in a fresh folder'
	@echo 'make test     the gate: prove every crate from nothing, run its tests, try the wrong bodies of must-fail/, and'
	@echo '              test the built program, the documents and the tools'
	@echo 'make program-tests  test the program that is there, or one that is built first, and check the documents'
	@echo 'make wrong-bodies   try the edits of wrong-bodies/, of all crates or of those in CRATES="NAME .."'
	@echo 'make install  build the program, and install it with its man page, its completion for bash, and the relay,'
	@echo '              below PREFIX (now $(PREFIX)), with the clients for emulators'
	@echo 'make install-clients  install these alone: filser.h, libfilser.a, filser.pc, and a package of Python below'
	@echo '              PYTHON_FOLDER (now $(PYTHON_FOLDER))'

# rt try needs no proof, takes no lock, and leaves nothing below crates/, so it may run beside a check.
try:
	@tools/first-session

quick:
	tools/quick

# The program that rt ci leaves is the one that it built from nothing.
test:
	tools/gate

# Many edits by one check, beginning with what earlier checks kept: the first time every crate is proved too.
wrong-bodies:
	tools/wrong-bodies $(CRATES)

# A program that is there is taken as it is: make build after a change of the sources.
program-tests:
	@test -x crates/filser/out/filser || $(MAKE) build
	tests/run_all.sh crates/filser/out/filser
	tools/check-docs crates/filser/out/filser

# The first time every crate below the program is proved too; what was proved is kept below crates/*/out.
build:
	@echo 'This proves the program and all crates below it, and builds it: up to half an hour the first time, on four'
	@echo 'processors, and later only what has changed. "so far: N of M functions checked" speaks of one crate.'
	tools/build
	mkdir -p bin
	cp crates/filser/out/filser bin/filser

# The second session is refused, since nobody has made a directory yet: status 1.
run: build
	@set -e; program=$$PWD/bin/filser; folder=$$(mktemp -d); cd $$folder; \
	show() { printf '$$ %s\n' "$$1"; }; \
	show "cd $$folder"; \
	show "printf 'LOGIN [10,20]\\n' | filser"; \
	printf 'LOGIN [10,20]\n' | $$program; \
	show 'filser init DISK.IMG 64'; \
	$$program init DISK.IMG 64; \
	show 'ls -l DISK.IMG'; \
	ls -l DISK.IMG; \
	show "printf 'LOGIN [10,20]\\nDIRECTORY\\n' | filser run DISK.IMG"; \
	printf 'LOGIN [10,20]\nDIRECTORY\n' | $$program run DISK.IMG || test $$? -eq 1; \
	show "printf 'LOGIN [10,20]\\nMAKDIR [10,20]\\nDIRECTORY\\n' | filser run DISK.IMG"; \
	printf 'LOGIN [10,20]\nMAKDIR [10,20]\nDIRECTORY\n' | $$program run DISK.IMG

install: build install-clients
	install -d $(DESTDIR)$(PREFIX)/bin $(DESTDIR)$(PREFIX)/share/man/man1
	install -d $(DESTDIR)$(PREFIX)/share/bash-completion/completions
	install -m 755 bin/filser $(DESTDIR)$(PREFIX)/bin/filser
	install -m 644 crates/filser/filser.1 $(DESTDIR)$(PREFIX)/share/man/man1/filser.1
	install -m 644 crates/filser/filser.bash $(DESTDIR)$(PREFIX)/share/bash-completion/completions/filser
	install -d $(DESTDIR)$(PREFIX)/lib/filser
	install -m 644 clients/python/filser.py clients/python/filser_control.py clients/python/filser_session.py \
		clients/python/filser_users.py $(DESTDIR)$(PREFIX)/lib/filser
	install -m 755 clients/python/filser_relay.py $(DESTDIR)$(PREFIX)/lib/filser/filser_relay.py
	ln -sf ../lib/filser/filser_relay.py $(DESTDIR)$(PREFIX)/bin/filser-relay
	install -m 644 clients/python/filser-relay.1 $(DESTDIR)$(PREFIX)/share/man/man1/filser-relay.1

# The clients need no proof. Without a C compiler the library is left out.
install-clients:
	install -d $(DESTDIR)$(PREFIX)/include $(DESTDIR)$(PREFIX)/lib/pkgconfig $(DESTDIR)$(PYTHON_FOLDER)/filser
	install -m 644 clients/c/filser.h $(DESTDIR)$(PREFIX)/include/filser.h
	@set -e; if ! command -v $(CC) >/dev/null; then echo 'there is no C compiler, so no library'; exit 0; fi; \
	room=$$(mktemp -d); trap 'rm -rf "$$room"' EXIT; \
	$(CC) -std=c99 -O2 -fPIC -c -o $$room/filser.o clients/c/filser.c; \
	$(AR) rcs $$room/libfilser.a $$room/filser.o; \
	install -m 644 $$room/libfilser.a $(DESTDIR)$(PREFIX)/lib/libfilser.a
	sed 's|@PREFIX@|$(PREFIX)|' clients/c/filser.pc.in >$(DESTDIR)$(PREFIX)/lib/pkgconfig/filser.pc
	cd clients/python && install -m 644 __init__.py filser.py py.typed $(DESTDIR)$(PYTHON_FOLDER)/filser
