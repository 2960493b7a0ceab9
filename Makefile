# make test: the whole gate. make help: what else there is.
.POSIX:
.PHONY: help run test check fmt lib install programs bench fuzz soak clean

PREFIX = /usr/local
DESTDIR =

help:
	@echo 'make run       build the programs of the first page and show the board of an example job'
	@echo 'make test      prove every crate, try every wrong edit, run every other test'
	@echo 'make check     prove every crate that changed, and run its programs'
	@echo 'make programs  prove and build the programs board, inspect, replay, history, rounds, clean, arrange and summary, in target/bin'
	@echo 'make lib       prove and build include/libportal.a, for a portal in C or C++'
	@echo 'make install   put library, header and portal.pc under PREFIX (now $(PREFIX)); DESTDIR goes in front'
	@echo 'make fmt       lay out the sources'
	@echo 'make bench     nanoseconds a step, against a fast version in Rust'
	@echo 'make fuzz      raw bytes, generated jobs, histories, orders of newcomers and turns, and pairs, until stopped'
	@echo 'make soak      ten million jobs through one replay process, a million newcomers through one rounds process'
	@echo 'make clean     remove all that was built'

# The example is a portal's depth summary; its board is examples/expected/depths.out. A program of this toolchain cannot give an exit status, so that the board
# is whole is seen by its last line.
run:
	@python3 -c 'import sys; sys.exit(sys.version_info < (3, 7))' || \
	  { echo 'make run: tools/job needs Python 3.7 or newer as python3 on the path' >&2; exit 1; }
	@bash tools/build board inspect replay
	@tools/job assemble examples/depths.yoke -o target/depths.job || \
	  { echo 'make run: tools/job could not assemble examples/depths.yoke' >&2; exit 1; }
	@target/bin/board < target/depths.job > target/depths.out || \
	  { echo 'make run: target/bin/board failed' >&2; exit 1; }
	@tail -n 1 target/depths.out | grep -q '^end ' || \
	  { echo 'make run: target/bin/board wrote no whole board; is the disk full?' >&2; exit 1; }
	@echo 'The board of examples/depths.yoke:'
	@cat target/depths.out

test:
	@bash tests/gate

check:
	rt all test

fmt:
	@for crate in crates/*/; do (cd "$$crate" && rt fmt) || exit 1; done

programs:
	@bash tools/build board inspect replay history rounds clean arrange summary

lib:
	@bash tools/build portal

# It proves nothing and builds nothing, so that it can be run by whoever may write to PREFIX.
install:
	@[ -f include/libportal.a ] || { echo 'make install: there is no include/libportal.a; run make lib first' >&2; exit 1; }
	mkdir -p '$(DESTDIR)$(PREFIX)/include' '$(DESTDIR)$(PREFIX)/lib/pkgconfig'
	cp include/portal.h '$(DESTDIR)$(PREFIX)/include/portal.h'
	cp include/libportal.a '$(DESTDIR)$(PREFIX)/lib/libportal.a'
	version=$$(sed -n 's/^#define PORTAL_VERSION "\(.*\)"$$/\1/p' include/portal.h) && \
	  sed -e 's|@PREFIX@|$(PREFIX)|' -e "s|@VERSION@|$$version|" include/portal.pc.in > '$(DESTDIR)$(PREFIX)/lib/pkgconfig/portal.pc'
	cd '$(DESTDIR)$(PREFIX)' && chmod 644 include/portal.h lib/libportal.a lib/pkgconfig/portal.pc

bench:
	@bash -euc '. tests/harness.sh; "$$harness/bench"'

fuzz:
	@bash tests/fuzz

soak:
	@bash -euc '. tests/harness.sh; "$$harness/soak"; "$$harness/soak" --rounds "$$ROUNDS"'

clean:
	rm -rf target reference/target include/libportal.a crates/*/out
	find tools tests -name __pycache__ -type d -prune -exec rm -rf '{}' +
