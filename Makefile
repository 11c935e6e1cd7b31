# make              proves the crates of the program, and builds bin/cbrowse
# make quick        builds bin/cbrowse without proofs
# make test         the gate
# make install      the program, its companions, the plugin for vim and nvim, completions, manual
#                   pages and documents, below PREFIX; DESTDIR goes before it
# make uninstall    takes away what make install puts in place, and the folders that are then empty
# make deb          dist/cbrowse_VERSION_ARCH.deb, a Debian package of the same
# make dist         a tar of the same, and one of the sources of the last commit, in dist/
#
# The first three say what they need, if it is not there.
.PHONY: all program quick test install uninstall deb dist clean

PREFIX ?= /usr/local
# Where zsh looks for completions of programs below PREFIX.
ZSH ?= $(PREFIX)/share/zsh/site-functions

all: program

program:
	@scripts/needs.sh make
	scripts/prove.py
	cd crates/cbrowse && rt run -- line </dev/null >/dev/null
	mkdir -p bin
	cp crates/cbrowse/out/cbrowse bin/cbrowse

quick:
	@scripts/needs.sh quick
	scripts/quick.py

test:
	@scripts/needs.sh test
	scripts/gate.py

# The program is copied as it stands in bin: nothing is proved anew, unless there is none.
install: bin/cbrowse
	scripts/install.sh "$(DESTDIR)" "$(PREFIX)" "$(ZSH)"

uninstall:
	scripts/install.sh --undo "$(DESTDIR)" "$(PREFIX)" "$(ZSH)"

deb: bin/cbrowse
	scripts/package.sh deb

dist: bin/cbrowse
	scripts/package.sh tar

bin/cbrowse:
	$(MAKE) program

clean:
	rm -rf bin dist crates/*/out
