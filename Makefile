# Builds and installs the three programs and the library for C. Each is proved before it is built: the first time takes an hour or
# more, a later one the time of what was changed. Wants the Rattle kit's `rt` on the path; `make install` takes PREFIX and DESTDIR.
PREFIX ?= /usr/local
PROGRAMS = nandctl nandlab nanddisk
TO = $(DESTDIR)$(PREFIX)
BASHDIR = $(TO)/share/bash-completion/completions
ZSHDIR = $(TO)/share/zsh/$(if $(filter /usr,$(PREFIX)),vendor-completions,site-functions)

all: $(PROGRAMS) lib

$(PROGRAMS):
	bench/build.sh $@

# libftl_c.a in crates/ftl_c/out/aarch64 and, for x86-64, in out/x86_64
lib:
	bench/build.sh ftl_c aarch64 && bench/build.sh ftl_c x86_64

# the programs and the device in firmware, unproved: `rt try` keeps none
quick:
	cd crates/nandctl && rt try -- sector 64,32,8,32,32 data/image.bin 5
	cd crates/nandlab && rt try -- geometry data/unknown.bin
	cd crates/nanddisk && rt try --data disk.nand=data/disk.nand --data disk.nand.json=data/disk.nand.json -- serve disk.nand <stdin | od -Anc
	cd crates/firmware && rt try

install: $(PROGRAMS) install-lib
	for name in $(PROGRAMS); do install -D -m 755 -t $(TO)/bin crates/$$name/out/$$name && install -D -m 644 -t $(TO)/share/man/man1 docs/man/$$name.1 && \
		install -D -m 644 completions/$$name.bash $(BASHDIR)/$$name && install -D -m 644 -t $(ZSHDIR) completions/_$$name || exit 1; done

install-lib: lib
	install -D -m 644 crates/ftl_c/out/x86_64/libftl_c.a $(TO)/lib/libftl.a && install -D -m 644 -t $(TO)/include include/ftl.h
	install -D -m 644 -t $(TO)/share/doc/kothlaim docs/*.md bench/SPEED.md CHANGELOG.md && install -D -m 644 -t $(TO)/share/doc/kothlaim/examples examples/c/*.[ch]
	install -D -m 644 -t $(TO)/share/man/man3 docs/man/ftl.3 && install -d $(TO)/lib/pkgconfig
	sed 's|@PREFIX@|$(PREFIX)|' include/ftl.pc.in >$(TO)/lib/pkgconfig/ftl.pc

test:
	rt ci

.PHONY: all lib quick install install-lib test $(PROGRAMS)
