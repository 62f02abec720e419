# Builds, checks and installs orcc. The Rattle kit's command rt has to be on the path for all but install and world.
#
#   make            the program, proved: half an hour the first time, on four processors
#   make try        compiles the program without proofs and runs it once: a minute
#   make check      proves every crate, tries the must-fail edits, runs all tests and the program
#   make world      runs the scripts that no gate runs: compilers, linkers, the processor, the ORC library
#   make install    PREFIX=/usr/local, DESTDIR empty: the program is installed as orcc-proved, since the ORC
#                   library has a program orcc, which builds look for
#   make uninstall  removes what install put there

PREFIX ?= /usr/local
DESTDIR ?=
NAME ?= orcc-proved
PROGRAM ?= crates/orcc/out/orcc
VERSION = 1.0

bin = $(DESTDIR)$(PREFIX)/bin
headers = $(DESTDIR)$(PREFIX)/include
tool = $(DESTDIR)$(PREFIX)/libexec/orcc
share = $(DESTDIR)$(PREFIX)/share
man = $(share)/man/man1
pkgconfig = $(share)/pkgconfig
bash = $(share)/bash-completion/completions
fish = $(share)/fish/vendor_completions.d
zsh = $(share)/zsh/site-functions

named = sed -e 's|@NAME@|$(NAME)|g' -e 's|@PREFIX@|$(PREFIX)|g' -e 's|@VERSION@|$(VERSION)|g'

build:
	cd crates/orcc && rt run -- check < ../../kernels/volume.orc

try:
	cd crates/orcc && rt try -- check < ../../kernels/volume.orc

check:
	rt ci

world:
	scripts/world.sh $(abspath $(PROGRAM))

install:
	test -x $(PROGRAM)
	install -d $(bin) $(headers) $(tool) $(man) $(pkgconfig) $(bash) $(fish) $(zsh)
	install -m 755 $(PROGRAM) $(bin)/$(NAME)
	install -m 644 include/orcc.h include/orcc_check.h $(headers)
	$(named) scripts/orcc-for-builds | sed 's|"orcc-proved"|"$(NAME)"|' > $(tool)/orcc
	chmod 755 $(tool)/orcc
	$(named) docs/orcc.1 > $(man)/$(NAME).1
	$(named) include/orcc.pc > $(pkgconfig)/orcc.pc
	$(named) completions/orcc.bash > $(bash)/$(NAME)
	$(named) completions/orcc.fish > $(fish)/$(NAME).fish
	$(named) completions/orcc.zsh > $(zsh)/_$(NAME)

uninstall:
	rm -f $(bin)/$(NAME) $(headers)/orcc.h $(headers)/orcc_check.h $(tool)/orcc $(man)/$(NAME).1
	rm -f $(pkgconfig)/orcc.pc $(bash)/$(NAME) $(fish)/$(NAME).fish $(zsh)/_$(NAME)
	-rmdir $(tool)

.PHONY: build try check world install uninstall
