# The library for C and Rust from generated/, by a C compiler alone (docs/C.md), and on x86-64 the
# programs `hid` and `hidreport`:
#   make           builds them into build/: a static and a shared library, and the programs
#   make page      writes build/hid.html, the program `hid` whole in a page (docs/PAGE.md)
#   make check     asks both libraries the questions of c/cases.txt
#   make install   puts all of it into PREFIX, below DESTDIR where that is given; BINDIR, DATADIR,
#                  INCLUDEDIR and LIBDIR may be named one by one
#   make prove     proves the programs by the toolchain, so that ./hid and ./hidreport run these
# CC says for which processor and system it compiles; where generated/ has no assembly for these, and
# with PORTABLE=yes, the library is generated/portable/hidreport.c (docs/C.md). RUN runs a program of
# another processor or system, as qemu-aarch64 or wine.
PREFIX = /usr/local
BINDIR = $(PREFIX)/bin
DATADIR = $(PREFIX)/share
INCLUDEDIR = $(PREFIX)/include
LIBDIR = $(PREFIX)/lib
CFLAGS ?= -O2
BUILD = build
number = $(shell sed -n 's/^.define HIDREPORT_VERSION_$(1) //p' include/hidreport.h)
version := $(call number,MAJOR).$(call number,MINOR).$(call number,PATCH)-$(call number,STAGE)
machine := $(shell $(CC) -dumpmachine)
processor := $(firstword $(subst -, ,$(machine)))
is_linux := $(findstring -linux,$(machine))
exe := $(if $(findstring mingw,$(machine)),.exe)
made = generated/$(processor)-linux
text = $(made)/hidreport.s
programs = $(if $(is_linux),$(patsubst $(made)/%.o.gz,$(BUILD)/%,$(wildcard $(made)/*.o.gz)))
objects = $(if $(and $(is_linux),$(wildcard $(text)),$(if $(PORTABLE),,yes)), \
    $(BUILD)/library.o $(BUILD)/heap.o,$(BUILD)/portable.o)
shared = libhidreport.so.$(version)
# What programs that are linked with it ask for: docs/C.md says when its number is another.
soname = libhidreport.so.0
askers = $(BUILD)/ask_static$(exe) $(if $(is_linux),$(BUILD)/ask_shared)
compile = $(CC) -std=c11 $(CPPFLAGS) $(CFLAGS) -Iinclude

libraries = $(BUILD)/libhidreport.a $(if $(is_linux),$(BUILD)/libhidreport.so)
all: $(libraries) $(BUILD)/hidreport.3 $(programs) $(BUILD)/fresh

# Says where generated/ was made from other sources than these; looked for again where one changes.
$(BUILD)/fresh: generated/SOURCES include/hidreport.h $(shell find crates/*/src -name '*.rt')
	@mkdir -p $(BUILD)
	@said=$$(sh tools/program.sh fresh) || exit; \
	    if [ -n "$$said" ]; then echo "$$said"; else touch $@; fi
# Jumps that cross a block of 32 bytes are slow on x86-64 processors of 2015 to 2019.
branches = $(shell $(CC) -Wa,-mbranches-within-32B-boundaries -c -x assembler -o /dev/null \
    /dev/null 2> /dev/null && echo -Wa,-mbranches-within-32B-boundaries)
$(BUILD)/library.o: $(text)
	mkdir -p $(BUILD)
	$(CC) $(CFLAGS) $(branches) -c -o $@ $<
$(BUILD)/heap.o: generated/heap.c
	mkdir -p $(BUILD)
	$(compile) -fPIC -c -o $@ $<
$(BUILD)/portable.o: generated/portable/hidreport.c include/hidreport.h
	mkdir -p $(BUILD)
	$(compile) $(if $(is_linux),-fPIC) -c -o $@ $<
$(BUILD)/libhidreport.a: $(objects)
	rm -f $@
	$(AR) rcs $@ $^
$(BUILD)/$(shared): $(objects) c/hidreport.map
	$(CC) $(CFLAGS) $(LDFLAGS) -shared -Wl,-soname,$(soname),-z,defs,--gc-sections \
	    -Wl,--version-script=c/hidreport.map -o $@ $(objects)
$(BUILD)/libhidreport.so: $(BUILD)/$(shared)
	ln -sf $(shared) $(BUILD)/$(soname)
	ln -sf $(soname) $@
$(BUILD)/hid $(BUILD)/hidreport: $(BUILD)/%: $(made)/%.o.gz generated/programs.c generated/heap.c
	mkdir -p $(BUILD)
	gzip -dc $< > $@.program.o
	$(compile) $(LDFLAGS) -Wl,--wrap=main -o $@.new $@.program.o generated/programs.c generated/heap.c
	mv $@.new $@
# What ./hid and ./hidreport run: of these sources, linked, proved or built without a proof.
run-hid run-hidreport: run-%:
	@MAKE="$(MAKE)" sh tools/program.sh run $*
prove: prove-hid prove-hidreport
prove-hid prove-hidreport: prove-%:
	sh tools/program.sh prove $*

# The program `hid` whole, in one page.
page: $(BUILD)/hid.html
$(BUILD)/hid.html: tools/page.sh generated/wasm/hid.wasm.gz include/hidreport.h $(wildcard page/*) \
    $(wildcard crates/hid_page/page/*) $(addprefix js/src/,host.js memory_files.js collections.js)
	@mkdir -p $(BUILD)
	sh tools/page.sh $(version) > $@.new
	mv $@.new $@

cases = c/cases.c c/cases_print.h c/cases_words.h c/cases_asked.h c/cases_wholes.h c/cases_names.h
$(BUILD)/ask_static$(exe): $(cases) include/hidreport.h $(BUILD)/libhidreport.a
	$(compile) $(LDFLAGS) -o $@ c/cases.c $(BUILD)/libhidreport.a
$(BUILD)/ask_shared: $(cases) include/hidreport.h $(BUILD)/libhidreport.so
	$(compile) $(LDFLAGS) -o $@ c/cases.c $(BUILD)/libhidreport.so -Wl,-rpath,'$$ORIGIN'

# One of the cases is that memory is refused, so there is little where it isn't refused by itself.
check: all $(askers)
	@grep -v '^  ' c/cases.txt > $(BUILD)/questions
	@for asker in $(askers); do \
	    ($(if $(is_linux),ulimit -v 4000000 &&) $(RUN) $$asker < $(BUILD)/questions) | tr -d '\r' \
	        > $(BUILD)/answers && \
	    diff c/cases.txt $(BUILD)/answers || { echo "$$asker: other answers"; exit 1; }; \
	    echo "$$asker: the wanted answers to $$(grep -c '^[a-z]' $(BUILD)/questions) questions"; \
	done

# The shell reads where to from its environment, so that a quote or a space in it is one of its letters.
export BINDIR DATADIR DESTDIR INCLUDEDIR LIBDIR PREFIX
put = put() { install -D -m 644 "$$1" "$$DESTDIR$$2"; }
package = $(shell find rust/*.toml rust/build.rs rust/README.md rust/src rust/examples -type f)
texts = $(wildcard share/*/*/*)
install: all install-library install-programs
install-library: $(BUILD)/libhidreport.a $(BUILD)/libhidreport.so $(BUILD)/hidreport.3
	@$(put) && rm -rf "$$DESTDIR$$DATADIR/hidreport/rust" && \
	    put include/hidreport.h "$$INCLUDEDIR/hidreport.h" && \
	    put $(BUILD)/libhidreport.a "$$LIBDIR/libhidreport.a" && \
	    put $(BUILD)/$(shared) "$$LIBDIR/$(shared)" && \
	    ln -sf $(shared) "$$DESTDIR$$LIBDIR/$(soname)" && \
	    ln -sf $(soname) "$$DESTDIR$$LIBDIR/libhidreport.so" && \
	    put c/hidreport.pc "$$LIBDIR/pkgconfig/hidreport.pc" && \
	    { if [ "$$LIBDIR $$INCLUDEDIR" = "$$PREFIX/lib $$PREFIX/include" ]; \
	        then echo 'libdir=$${pcfiledir}/..' && echo 'includedir=$${pcfiledir}/../../include'; \
	        else echo "libdir=$$LIBDIR" && echo "includedir=$$INCLUDEDIR"; fi && \
	    sed 's/VERSION/$(version)/' c/hidreport.pc; } > "$$DESTDIR$$LIBDIR/pkgconfig/hidreport.pc" && \
	    put $(BUILD)/hidreport.3 "$$DATADIR/man/man3/hidreport.3" && \
	    for file in $(package); do put $$file "$$DATADIR/hidreport/$$file" || exit; done && \
	    sed -i 's/^version = .*/version = "$(version)"/' "$$DESTDIR$$DATADIR/hidreport/rust/Cargo.toml"
install-programs: $(programs)
	@$(put) && for file in $(if $(programs),$(texts)); do \
	        put $$file "$$DATADIR/$${file#share/}" || exit; done && \
	    for program in $(programs); do \
	        install -D -m 755 $$program "$$DESTDIR$$BINDIR/$${program##*/}" || exit; done
$(BUILD)/hidreport.3: c/man_page.awk include/hidreport.h
	@mkdir -p $(BUILD)
	awk -v version=$(version) -f c/man_page.awk include/hidreport.h > $@.new
	mv $@.new $@

clean:
	rm -rf $(BUILD)

.PHONY: all page check install install-library install-programs clean
.PHONY: run-hid run-hidreport prove prove-hid prove-hidreport
