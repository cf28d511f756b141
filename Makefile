# Proves, builds and installs Lindenscoop (GNU make):  make, make install PREFIX=.., make uninstall, make dist, make check, make clean
# Each folder below can be given on the command line; DESTDIR goes in front of all of them when a package is made.
PREFIX ?= /usr/local
bindir = $(PREFIX)/bin
libdir = $(PREFIX)/lib
includedir = $(PREFIX)/include
datadir = $(PREFIX)/share
mandir = $(datadir)/man
pkgconfigdir = $(libdir)/pkgconfig
bashdir = $(datadir)/bash-completion/completions
zshdir = $(datadir)/zsh/site-functions
fishdir = $(datadir)/fish/vendor_completions.d
PYTHON = python3
python_name := $(shell $(PYTHON) -c 'import sys; print("python%d.%d" % sys.version_info[:2])' 2>/dev/null)
# Empty where there is no Python; the module is then left out.
pythondir = $(if $(python_name),$(PREFIX)/lib/$(python_name)/site-packages)
distdir = .
CARGO = cargo
INSTALL = install

version := $(shell scripts/version)
so := liblindenscoop.so
so_linked := $(so).$(basename $(version))
static := target/staticlib/liblindenscoop.a
shared := target/sharedlib/$(so).$(version)
command := $(or $(CARGO_TARGET_DIR),target/cargo)/release/lindenscoop
proved := crates.txt $(shell find crates -type f -not -path '*/must-fail/*' -not -path '*/out/*')
rust := Cargo.toml .cargo/config.toml $(shell find command bindings/rust -name '*.rs' -o -name Cargo.toml)
module := $(notdir $(wildcard python/lindenscoop/*.py))
described := read write search start feed feed_all mark full_year days_since_1980 add_second runs_clear runs_clear_rack second_date message
D = $(DESTDIR)
put = $(INSTALL) -D -m

.PHONY: all install install-files install-python uninstall dist check clean

all: $(static) $(shared) $(command)

# Each file stands for its sources, so that `make install` by another user, who has neither kit nor cargo, builds nothing.
$(static): $(proved)
	@command -v rt >/dev/null || { printf '%s\n' 'make: the Rattle kit is needed to prove and build the library, and its command rt is not on PATH.' \
	    'The kit comes from whoever supplies the Rattle compiler. Put its folder bin on PATH:  PATH=/where/the/kit/is/bin:$$PATH make' >&2; exit 1; }
	scripts/build lindenscoop_c
	@touch $@

$(shared): $(static) python/make-shared.sh bindings/c/exported.map Cargo.toml
	CC='$(CC)' python/make-shared.sh

$(command): $(static) $(rust)
	@command -v $(CARGO) >/dev/null || { echo 'make: cargo is needed to build the command; it comes with Rust' >&2; exit 1; }
	$(CARGO) build --release --offline --quiet -p lindenscoop-command
	@touch $@

install: install-files $(if $(pythondir),install-python)
	$(if $(pythondir),,@echo 'make: there is no $(PYTHON) here, so the Python module is left out')

install-files: all
	$(put) 755 $(command) '$(D)$(bindir)/lindenscoop'
	$(put) 644 bindings/c/include/lindenscoop.h '$(D)$(includedir)/lindenscoop.h'
	$(put) 644 $(static) '$(D)$(libdir)/liblindenscoop.a'
	$(put) 755 $(shared) '$(D)$(libdir)/$(so).$(version)'
	ln -sf $(so).$(version) '$(D)$(libdir)/$(so_linked)'
	ln -sf $(so_linked) '$(D)$(libdir)/$(so)'
	$(put) 644 bindings/c/lindenscoop.pc.in '$(D)$(pkgconfigdir)/lindenscoop.pc'
	sed -i -e 's|@PREFIX@|$(PREFIX)|' -e 's|@VERSION@|$(version)|' -e 's|@LIBDIR@|$(patsubst $(PREFIX)/%,$${prefix}/%,$(libdir))|' \
	    -e 's|@INCLUDEDIR@|$(patsubst $(PREFIX)/%,$${prefix}/%,$(includedir))|' '$(D)$(pkgconfigdir)/lindenscoop.pc'
	$(put) 644 docs/man/lindenscoop.1.in '$(D)$(mandir)/man1/lindenscoop.1'
	$(put) 644 docs/man/lindenscoop.3.in '$(D)$(mandir)/man3/lindenscoop.3'
	sed -i 's|@VERSION@|$(version)|' '$(D)$(mandir)/man1/lindenscoop.1' '$(D)$(mandir)/man3/lindenscoop.3'
	for name in $(described); do ln -sf lindenscoop.3 '$(D)$(mandir)'/man3/lindenscoop_$$name.3 || exit; done
	$(put) 644 command/completion/lindenscoop.bash '$(D)$(bashdir)/lindenscoop'
	$(put) 644 command/completion/_lindenscoop '$(D)$(zshdir)/_lindenscoop'
	$(put) 644 command/completion/lindenscoop.fish '$(D)$(fishdir)/lindenscoop.fish'

# The module looks for the library beside itself first, so a link there serves for any libdir and pythondir, and below DESTDIR.
install-python: install-files
	for file in $(module); do $(put) 644 python/lindenscoop/$$file '$(D)$(pythondir)'/lindenscoop/$$file || exit; done
	ln -sf "$$(realpath -m --relative-to='$(D)$(pythondir)/lindenscoop' '$(D)$(libdir)')/$(so_linked)" '$(D)$(pythondir)/lindenscoop/$(so_linked)'

installed = $(bindir)/lindenscoop $(includedir)/lindenscoop.h $(addprefix $(libdir)/,liblindenscoop.a $(so) $(so_linked) $(so).$(version)) \
    $(pkgconfigdir)/lindenscoop.pc $(mandir)/man1/lindenscoop.1 $(mandir)/man3/lindenscoop.3 $(described:%=$(mandir)/man3/lindenscoop_%.3) \
    $(bashdir)/lindenscoop $(zshdir)/_lindenscoop $(fishdir)/lindenscoop.fish \
    $(if $(pythondir),$(addprefix $(pythondir)/lindenscoop/,$(module) $(so_linked)))

# Folders that others use too are left; that of the module goes, with what Python stored in it.
uninstall:
	rm -f $(foreach file,$(installed),'$(D)$(file)')
	$(if $(pythondir),rm -rf '$(D)$(pythondir)/lindenscoop/__pycache__')
	$(if $(pythondir),[ ! -d '$(D)$(pythondir)/lindenscoop' ] || rmdir '$(D)$(pythondir)/lindenscoop')

# The same bytes from the same commit, whoever makes it. Below another repository's folder git would pack that one.
dist:
	@prefix=$$(git rev-parse --show-prefix 2>/dev/null) && [ -z "$$prefix" ] || { printf '%s\n' \
	    'make: the archive is made of a git repository, and there is none here, or no git.' \
	    'Clone the repository and run make dist there; an archive that was made so before can be handed on as it is.' >&2; exit 1; }
	@git diff --quiet HEAD || echo 'make: what is not committed is not in the archive' >&2
	git -c tar.umask=0022 -c core.autocrlf=false archive --prefix=lindenscoop-$(version)/ -o '$(distdir)/lindenscoop-$(version).tar' HEAD
	gzip -n -9 -f '$(distdir)/lindenscoop-$(version).tar'

check:
	.ci/run

# With crates/*/out go the proofs: the next make proves all again.
clean:
	rm -rf target crates/*/out lindenscoop-$(version).tar.gz
