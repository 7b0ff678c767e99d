# make: the archive, the shared object and the command, in target/make/ and tool/target/.
# make install PREFIX=/usr/local [DESTDIR=/somewhere]: these, the header, etglavino.pc,
# the man page and bash's completion. make uninstall takes the same and removes them.
#
# The proved archive is taken as it is in crates/etglavino_c/out; `rt lib` makes it where
# it is missing, or older than the crates.
PREFIX ?= /usr/local
DESTDIR ?=
CARGO ?= cargo

version := $(shell sed -n 's/^\#define ETG_VERSION "\(.*\)"/\1/p' include/etglavino.h)
# Programs that are linked with one library of a soname run with every other.
soname := libetglavino.so.$(firstword $(subst ., ,$(version)))
shared := libetglavino.so.$(version)

made := target/make
proved := crates/etglavino_c/out/libetglavino_c.a
archive := $(made)/libetglavino.a
object := $(made)/$(shared)
command := tool/target/release/etglavino

to := $(DESTDIR)$(PREFIX)
installed := bin/etglavino include/etglavino.h lib/libetglavino.a lib/$(shared) lib/$(soname) lib/libetglavino.so \
    lib/pkgconfig/etglavino.pc share/man/man1/etglavino.1 share/bash-completion/completions/etglavino \
    share/doc/etglavino/LICENSE

all: library command

library: $(archive) $(object)

# Cargo knows whether there is anything to do.
command: $(proved)
	$(CARGO) build --quiet --release --offline --manifest-path tool/Cargo.toml

$(proved): crates.txt $(shell find crates -name out -prune -o '(' -name '*.rt' -o -name '*.antt' ')' -print)
	cd crates/etglavino_c && rt lib

$(made)/text.o: c/text.c include/etglavino.h
	mkdir -p $(made)
	$(CC) -std=c99 -Wall -Wextra -Werror -O2 -fPIC $(CFLAGS) -I include -c -o $@ $<

$(archive): $(proved) $(made)/text.o
	cp $(proved) $@.new
	$(AR) rs $@.new $(made)/text.o 2> /dev/null
	mv $@.new $@

$(object): $(archive) c/etglavino.map
	$(CC) -shared $(LDFLAGS) -Wl,-soname,$(soname) -Wl,--version-script,c/etglavino.map -Wl,-z,relro,-z,now -o $@ \
	    -Wl,--whole-archive $(archive) -Wl,--no-whole-archive

install: all
	install -d $(addprefix $(to)/,$(sort $(dir $(installed))))
	install -m 755 $(command) $(to)/bin/etglavino
	install -m 644 include/etglavino.h $(to)/include/etglavino.h
	install -m 644 $(archive) $(to)/lib/libetglavino.a
	install -m 755 $(object) $(to)/lib/$(shared)
	ln -sf $(shared) $(to)/lib/$(soname)
	ln -sf $(soname) $(to)/lib/libetglavino.so
	sed -e 's|@PREFIX@|$(PREFIX)|' -e 's|@VERSION@|$(version)|' c/etglavino.pc.in > $(to)/lib/pkgconfig/etglavino.pc
	install -m 644 tool/etglavino.1 $(to)/share/man/man1/etglavino.1
	install -m 644 tool/completion.bash $(to)/share/bash-completion/completions/etglavino
	install -m 644 LICENSE $(to)/share/doc/etglavino/LICENSE

uninstall:
	rm -f $(addprefix $(to)/,$(installed))

.PHONY: all library command install uninstall
