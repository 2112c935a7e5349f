# Installs the proved program, its manual page and the completion of its words for bash.
#
#   make            proves and builds the program (rt run, then crates/tsvd/out/tsvd)
#   make install    PREFIX is /usr/local, DESTDIR is put before it
#   make uninstall

PREFIX ?= /usr/local
PROGRAM := crates/tsvd/out/tsvd

all: $(PROGRAM)

$(PROGRAM):
	cd crates/tsvd && rt run < stdin > /dev/null

install: $(PROGRAM)
	install -D -m 755 $(PROGRAM) $(DESTDIR)$(PREFIX)/bin/tsvd
	install -D -m 644 man/tsvd.1 $(DESTDIR)$(PREFIX)/share/man/man1/tsvd.1
	install -D -m 644 man/tsvd.bash $(DESTDIR)$(PREFIX)/share/bash-completion/completions/tsvd

uninstall:
	rm -f $(DESTDIR)$(PREFIX)/bin/tsvd
	rm -f $(DESTDIR)$(PREFIX)/share/man/man1/tsvd.1
	rm -f $(DESTDIR)$(PREFIX)/share/bash-completion/completions/tsvd

.PHONY: all install uninstall
