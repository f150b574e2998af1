# make                 proves and builds: programs, archives, the shared library, man pages. Some 20 minutes on two cores, once (by the older Rattle)
# make install         installs below PREFIX, /usr/local where none is given: make install PREFIX=~/.local; DESTDIR is put before it
# make uninstall       removes what install installed, by the same PREFIX and DESTDIR
#
# It needs the Rattle toolchain (rt), bash, python3 and gcc with binutils. What is proved and unchanged is not proved again.
SHELL := /bin/bash
.SHELLFLAGS := -euo pipefail -c
.DELETE_ON_ERROR:
.SUFFIXES:

PREFIX ?= /usr/local
# a shell other than bash leaves the ~ as it is
override PREFIX := $(patsubst ~/%,$(HOME)/%,$(PREFIX))
DESTDIR ?=
to := $(DESTDIR)$(PREFIX)

version := $(shell cat VERSION)
soname := libfluturenc.so.$(firstword $(subst ., ,$(version)))
# A word of the command is a program, and has its page in help/. A group of calls is a crate, whose archive is that of the static library NAME_c.
words := $(filter-out fluturenc,$(basename $(notdir $(wildcard help/*.txt))))
groups := $(shell sed -n 's/^\(fluturenc[a-z_]*\)_c staticlib:.*/\1/p' crates.txt)
sources := crates.txt HANDLES $(shell find crates -type f -not -path '*/must-fail/*' -not -path 'crates/*/out/*')
programs := $(words:%=target/bin/%)
archives := $(groups:%=target/staticlib/lib%.a)
shared := target/shared/libfluturenc.so.$(version)
pages := $(patsubst help/%.txt,target/man/%.1,$(wildcard help/*.txt))

.PHONY: all proved archives install uninstall
all: proved $(programs) archives $(shared) $(pages)
proved: target/make/proved
archives: $(archives)

target/make/proved: $(sources) bin/build
	@mkdir -p $(@D)
	bin/build $(words) $(groups) 2>&1 | tee target/make/log | grep --line-buffered '^rt: \|^bin/build: \|^built '
	@touch $@

# The rule above makes each of these: here one that was removed since.
$(programs) $(archives): target/make/proved
	@[ -f $@ ] || bin/build $(patsubst lib%.a,%,$(@F))
	@touch $@

target/man/%.1: help/%.txt help/man.awk VERSION
	@mkdir -p $(@D)
	awk -v version=$(version) -v date=$$(date -r VERSION +%F) -f help/man.awk \
	    -v see='$(if $(filter fluturenc,$*),$(words:%=fluturenc-%),fluturenc)' $< > $@

$(shared): $(archives) Makefile
	@mkdir -p $(@D)
	gcc -shared -Wl,-soname,$(soname) -Wl,-z,defs,-z,text,--as-needed -o $@ -Wl,--whole-archive $(archives) -Wl,--no-whole-archive

# Every file and link that install makes, for uninstall.
installed := bin/fluturenc libexec/fluturenc share/bash-completion/completions/fluturenc include/fluturenc.h lib/pkgconfig/fluturenc.pc \
    $(archives:target/staticlib/%=lib/%) lib/libfluturenc.so lib/$(soname) lib/$(notdir $(shared)) \
    $(patsubst %,share/man/man1/%.1,fluturenc $(words:%=fluturenc-%))

install: all
	mkdir -p '$(to)'/{bin,libexec/fluturenc/help,include,lib/pkgconfig,share/man/man1,share/bash-completion/completions}
	install bin/fluturenc '$(to)/bin'
	install $(programs) '$(to)/libexec/fluturenc'
	install -m 644 VERSION '$(to)/libexec/fluturenc'
	install -m 644 help/*.txt '$(to)/libexec/fluturenc/help'
	install -m 644 c/fluturenc.h '$(to)/include'
	install -m 644 $(archives) '$(to)/lib'
	install $(shared) '$(to)/lib'
	ln -sf $(notdir $(shared)) '$(to)/lib/$(soname)'
	ln -sf $(soname) '$(to)/lib/libfluturenc.so'
	sed -e 's|@PREFIX@|$(PREFIX)|' -e 's|@VERSION@|$(version)|' -e 's|@OTHERS@|$(patsubst %,-l%,$(filter-out fluturenc,$(groups)))|' \
	    c/fluturenc.pc.in > '$(to)/lib/pkgconfig/fluturenc.pc'
	sed 's/@WORDS@/$(words)/' bin/completion.bash > '$(to)/share/bash-completion/completions/fluturenc'
	install -m 644 target/man/fluturenc.1 '$(to)/share/man/man1'
	for word in $(words); do install -m 644 target/man/$$word.1 '$(to)/share/man/man1'/fluturenc-$$word.1; done

uninstall:
	cd '$(to)' && rm -rf $(installed)
