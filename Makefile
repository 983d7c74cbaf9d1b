# make            proves and builds the programs and the static library
# make check      the gate
# make install    copies what make built: PREFIX (default /usr/local) is where it is used from, DESTDIR is put before it
#
# The kit's `rt` does the work; it proves nothing again that has not changed.
.POSIX:

PREFIX = /usr/local
DESTDIR =
PROGRAMS = wallrun wallreach wallwide
TO = $(DESTDIR)$(PREFIX)

all:
	for program in $(PROGRAMS); do tools/program $$program || exit 1; done
	cd crates/polzaintu && rt lib

check:
	bash .ci/run

install:
	for program in $(PROGRAMS); do test -x crates/$$program/out/$$program || { echo "run make first" >&2; exit 1; }; done
	test -f crates/polzaintu/out/libpolzaintu.a || { echo "run make first" >&2; exit 1; }
	mkdir -p "$(TO)/bin" "$(TO)/lib/pkgconfig" "$(TO)/include" "$(TO)/share/man/man1"
	for program in $(PROGRAMS); do \
	    install -m 755 crates/$$program/out/$$program "$(TO)/bin/" && \
	    install -m 644 docs/man/$$program.1 "$(TO)/share/man/man1/" || exit 1; \
	done
	install -m 644 crates/polzaintu/out/libpolzaintu.a "$(TO)/lib/"
	install -m 644 bindings/c/polzaintu.h "$(TO)/include/"
	version=$$(sed -n 's/^version = "\(.*\)"/\1/p' bindings/rust/Cargo.toml) && \
	    sed -e 's|@PREFIX@|$(PREFIX)|' -e "s|@VERSION@|$$version|" bindings/polzaintu.pc.in \
	    >"$(TO)/lib/pkgconfig/polzaintu.pc"
	chmod 644 "$(TO)/lib/pkgconfig/polzaintu.pc"

uninstall:
	for program in $(PROGRAMS); do rm -f "$(TO)/bin/$$program" "$(TO)/share/man/man1/$$program.1"; done
	rm -f "$(TO)/lib/libpolzaintu.a" "$(TO)/include/polzaintu.h" "$(TO)/lib/pkgconfig/polzaintu.pc"

.PHONY: all check install uninstall
