# make run: the bench station's plans in words, and what is on after each call. make library: the library for C and Rust.
# make test: everything that must hold before a change lands.
# make check: for while you work: proves what has changed, then runs every test but the must-fail edits and the soak.
# make install PREFIX=/usr/local: the library, its header, sailgarnet.pc for pkg-config and the command, under DESTDIR if it is given.
# make uninstall, with the same PREFIX and DESTDIR: removes these files.
# make bench, make instructions: time and instructions a call, Sailgarnet beside the reference. make benchmarks: docs/BENCHMARKS.md anew.
# make pictures: those in docs, the traces of W4, of W5 and of a sleep entry, and which crate stands on which.
# make soak SECONDS=600 SEED=7: the library against the reference on random cases for so long; without SEED with a new one, which is
# printed.
.PHONY: test check run library install uninstall bench instructions soak pictures benchmarks
.DELETE_ON_ERROR:

HOST = --quiet --offline --manifest-path host/Cargo.toml
LIBRARY = target/staticlib/libsailgarnet.a
COMMAND = host/target/release/sailgarnet
PREFIX = /usr/local
INSTALLED = $(DESTDIR)$(PREFIX)
VERSION = $(shell sed -n 's/^version = "\(.*\)"/\1/p' host/Cargo.toml)
SECONDS = 60
SEED = $(shell date +%s)

test:
	@bash tests/all.sh

check:
	@bash tests/all.sh quick

library: $(LIBRARY)

# Made anew when a file or folder of the proved code is newer; make -B library makes it in any case.
$(LIBRARY): crates.txt $(shell find crates -mindepth 2 \( -name must-fail -o -name out \) -prune -o \( -type d -o -name '*.rt' -o -name '*.antt' \) -print)
	@bash tests/prove.sh library

$(COMMAND): $(LIBRARY) $(shell find host -name target -prune -o \( -name '*.rs' -o -name 'Cargo.*' \) -print) examples/station.pwt
	@cargo build $(HOST) --release -p sailgarnet-cli
	@touch $@

run: $(LIBRARY)
	@cargo run $(HOST) -p sailgarnet-cli -- demo

install: $(LIBRARY) $(COMMAND)
	@case '$(PREFIX)' in /*) ;; *) echo 'PREFIX must begin with /'; exit 1 ;; esac
	install -d '$(INSTALLED)/bin' '$(INSTALLED)/include' '$(INSTALLED)/lib/pkgconfig'
	install -m 755 $(COMMAND) '$(INSTALLED)/bin/sailgarnet'
	install -m 644 $(LIBRARY) '$(INSTALLED)/lib/libsailgarnet.a'
	install -m 644 include/sailgarnet.h '$(INSTALLED)/include/sailgarnet.h'
	sed 's|@PREFIX@|$(PREFIX)|; s|@VERSION@|$(VERSION)|' include/sailgarnet.pc.in > '$(INSTALLED)/lib/pkgconfig/sailgarnet.pc'
	chmod 644 '$(INSTALLED)/lib/pkgconfig/sailgarnet.pc'

uninstall:
	rm -f '$(INSTALLED)/bin/sailgarnet' '$(INSTALLED)/lib/libsailgarnet.a' '$(INSTALLED)/include/sailgarnet.h'
	rm -f '$(INSTALLED)/lib/pkgconfig/sailgarnet.pc'

bench:
	@python3 tests/times.py

instructions:
	@cargo build $(HOST) --release -p sailgarnet --example benchmark
	@python3 tests/instructions.py host/target/release/examples/benchmark

soak:
	@SAILGARNET_SECONDS=$(SECONDS) SAILGARNET_SEED=$(SEED) cargo test $(HOST) --release -p sailgarnet --test differential -- --nocapture --test-threads 1 random_cases_agree

pictures:
	@bash tests/pictures.sh docs

benchmarks:
	@bash tests/benchmarks.sh
