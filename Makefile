# Installs what C links: the header, the library and a pkg-config file.
#
#     make                        proves the calls and builds target/staticlib/libcontacts.a
#     make shared                 links it to target/staticlib/libcontacts.so, for Python
#     make install PREFIX=DIR     installs them under DIR, /usr/local without one; DESTDIR is put before it
#     make uninstall PREFIX=DIR   removes them again

PREFIX = /usr/local
DESTDIR =
library = target/staticlib/libcontacts.a
version = $(shell sed -n 's/^.define CONTACTS_VERSION_TEXT "\(.*\)"$$/\1/p' include/contacts.h)
root = $(DESTDIR)$(PREFIX)

shared = $(library:.a=.so)

# rt proves again only what has changed
all:
	cd crates/contacts && rt lib
	install -D -m 644 crates/contacts/out/libcontacts.a $(library)

shared: $(shared)

$(shared): $(library)
	gcc -shared -o $@ -Wl,--whole-archive $< -Wl,--no-whole-archive

$(library):
	@echo "There is no $(library): run 'make' first." >&2; exit 1

install: $(library)
	install -d $(root)/include $(root)/lib/pkgconfig
	install -m 644 include/contacts.h $(root)/include/contacts.h
	install -m 644 $(library) $(root)/lib/libcontacts.a
	sed -e 's|@PREFIX@|$(abspath $(PREFIX))|' -e 's|@VERSION@|$(version)|' include/contacts.pc.in >$(root)/lib/pkgconfig/contacts.pc
	chmod 644 $(root)/lib/pkgconfig/contacts.pc

uninstall:
	rm -f $(root)/include/contacts.h $(root)/lib/libcontacts.a $(root)/lib/pkgconfig/contacts.pc

.PHONY: all shared install uninstall
