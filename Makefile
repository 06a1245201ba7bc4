# Makes the library of its one file, dist/zacpi.c, with a C compiler alone, of any little-endian processor:
#
#   make                    out/libzacpi.a, for programs
#   make kernel             out/libzacpi-kernel.a, by $(KERNEL_CFLAGS): general registers alone, no red zone, no jump
#                           through a register
#   make check              calls of it by programs of examples/c and tests/c; elsewhere RUN=qemu-arm LDFLAGS=-static
#   make install            the headers, zacpi.c, zacpi-subset, both archives, what leads pkg-config and CMake to them,
#                           examples, manual pages
#   make acpi_dump          out/acpi_dump, acpi_view and acpi_pack, the programs, by cargo, for TARGET if one is named
#   make stick              out/stick.img, which shows and saves a machine's tables without an operating system, by
#                           clang, lld, mtools and python3 (docs/TESTING.md)
#   make regenerate         dist/ anew, of the Rust package, by rustc and LLVM (scripts/dist)
#   make docs               out/site, the documents, calls by question, Rust items and manual pages, with a search
#   make install-programs   these, or the programs in $(PROGRAMS), with their manual pages and completions
#   make uninstall          removes what both have installed
#
# CC, AR, CFLAGS, LDFLAGS, PREFIX, LIBDIR and DESTDIR are the usual ones. OUT=FOLDER takes the place of out.
ifeq ($(wildcard dist/zacpi.c),)
$(error it makes all in its own folder: make -C FOLDER, with OUT=FOLDER for what is made)
endif
VERSION := $(shell sed -n 's/^.define ZACPI_VERSION "\(.*\)"/\1/p' include/zacpi.h)
CFLAGS ?= -O2
SECTIONS = -std=c99 -fPIC -ffunction-sections -fdata-sections
# Those of the flags that the compiler knows. RISC-V has no -mgeneral-regs-only, but an ABI for it.
KERNEL_FLAGS = -ffreestanding -fno-stack-protector -fno-jump-tables -fno-asynchronous-unwind-tables \
    -mgeneral-regs-only -mno-red-zone
MACHINE = $(shell $(CC) -dumpmachine)
taken = $(shell $(CC) -Werror $(1) -fsyntax-only -x c /dev/null 2>/dev/null && echo $(1))
KERNEL_CFLAGS ?= $(foreach flag,$(KERNEL_FLAGS),$(call taken,$(flag))) \
    $(if $(filter riscv64%,$(MACHINE)),-march=rv64imac -mabi=lp64 -mcmodel=medany)
PROCESSOR = $(shell echo $(firstword $(subst -, ,$(MACHINE))) | \
    sed 's/^amd64$$/x86_64/; s/^arm64$$/aarch64/; s/^arm.*/arm/; s/^i.86$$/i686/')
PREFIX ?= /usr/local
LIBDIR ?= $(PREFIX)/lib
SHARE = $(DESTDIR)$(PREFIX)/share
DOC = $(SHARE)/doc/zacpi
RUN ?=
OUT ?= out
NAMES = acpi_dump acpi_view acpi_pack
PROGRAMS ?= $(OUT)
INSTALL = install -m 644

all: $(OUT)/libzacpi.a
kernel: $(OUT)/libzacpi-kernel.a
$(OUT)/libzacpi-kernel.a: FLAGS = $(KERNEL_CFLAGS)
$(OUT)/lib%.a: dist/zacpi.c $(wildcard include/*.h)
	@mkdir -p $(OUT)
	$(CC) $(SECTIONS) $(CFLAGS) $(FLAGS) -Iinclude -c $< -o $(OUT)/$*.o
	@rm -f $@
	$(AR) rcs $@ $(OUT)/$*.o

# The programs: acpi_dump (tools/acpi_dump), and those of bindings/programs.
acpi_dump: $(OUT)/acpi_dump
CARGO ?= cargo
RUST = $(shell sed -n 's/^rust-version = "\(.*\)"/\1/p' tools/acpi_dump/Cargo.toml)
$(OUT)/acpi_dump: $(wildcard Cargo.* */*/Cargo.toml) $(shell find bindings/*/src tools/*/src -name '*.rs')
	@$(CARGO) --version 2>/dev/null | awk -v least=$(RUST) '{ split($$2, has, "."); split(least, needs, "."); \
	    new = has[1] > needs[1] || has[1] == needs[1] && has[2] + 0 >= needs[2] + 0 } END { exit !new }' || \
	    { echo "the programs need cargo $(RUST) or later, which isn't there: https://rustup.rs has it" >&2; exit 1; }
	@CARGO="$(CARGO)" scripts/lib/cargo $(OUT) --release \
	    $(if $(TARGET),--target $(TARGET) --no-default-features --features acpi_dump/fleet)
	cp $(NAMES:%=$(OUT)/cargo/$(if $(TARGET),$(TARGET)/)release/%) $(OUT)

stick:
	@mkdir -p $(OUT)/stick
	examples/stick/build $(OUT)/stick
	examples/stick/image $(OUT)/stick $(OUT)/stick.img

regenerate:
	scripts/dist

docs:
	scripts/site $(OUT)/site

LINKED = $(CC) -std=c99 $(CFLAGS) -Iinclude $(1) $(OUT)/libzacpi.a $(LDFLAGS) -o $(OUT)/$(2)
check: $(OUT)/libzacpi.a
	$(call LINKED,examples/c/first.c,first)
	$(call LINKED,tests/c/rows.c,rows)
	$(call LINKED,examples/c/show.c examples/c/lines.c,show)
	test "$$(tail -c +17 examples/c/data/ten_tables.image | $(RUN) $(OUT)/first)" = "16 processors"
	$(RUN) $(OUT)/rows
	$(RUN) $(OUT)/show examples/c/data/ten_tables.image rsdp 0x70000000 | cmp - examples/c/data/ten_tables.lines

# What a user includes, compiles, links and looks for. The folder can be moved as a whole.
install: $(OUT)/libzacpi.a $(OUT)/libzacpi-kernel.a
	mkdir -p $(DESTDIR)$(PREFIX)/include $(DESTDIR)$(PREFIX)/bin $(DESTDIR)$(LIBDIR)/pkgconfig \
	    $(DESTDIR)$(LIBDIR)/cmake/zacpi $(DOC)/examples $(SHARE)/man/man1 $(SHARE)/man/man3
	$(INSTALL) include/*.h dist/zacpi.c $(DESTDIR)$(PREFIX)/include
	install -m 755 scripts/zacpi-subset $(DESTDIR)$(PREFIX)/bin
	$(INSTALL) $(OUT)/libzacpi.a $(OUT)/libzacpi-kernel.a $(DESTDIR)$(LIBDIR)
	for name in zacpi zacpi-kernel; do sed "s|@NAME@|$$name|; s|@VERSION@|$(VERSION)|; s|@PREFIX@|$(PREFIX)|; \
	    s|@LIBDIR@|$(LIBDIR)|" scripts/zacpi.pc.in >$(DESTDIR)$(LIBDIR)/pkgconfig/$$name.pc || exit 1; done
	$(INSTALL) scripts/zacpi-config.cmake $(DESTDIR)$(LIBDIR)/cmake/zacpi/zacpi-config.cmake
	sed 's|@VERSION@|$(VERSION)|; s|@PROCESSOR@|$(PROCESSOR)|' \
	    scripts/zacpi-config-version.cmake.in >$(DESTDIR)$(LIBDIR)/cmake/zacpi/zacpi-config-version.cmake
	$(INSTALL) LICENSE dist/THIRD-PARTY docs/C.md $(DOC)
	$(INSTALL) examples/c/*.[ch] $(DOC)/examples
	$(INSTALL) docs/zacpi-subset.1 $(SHARE)/man/man1
	$(INSTALL) docs/man3/*.3 $(SHARE)/man/man3
# Of these in $(PROGRAMS) the ones that are there. Where that is $(OUT), they are made first.
install-programs: $(filter $(OUT)/acpi_dump,$(PROGRAMS)/acpi_dump)
	mkdir -p $(DESTDIR)$(PREFIX)/bin $(SHARE)/man/man1 $(SHARE)/bash-completion/completions \
	    $(SHARE)/zsh/site-functions $(SHARE)/fish/vendor_completions.d $(DOC)
	for name in $(NAMES); do [ ! -e $(PROGRAMS)/$$name ] || { there=yes && \
	    install -m 755 $(PROGRAMS)/$$name $(DESTDIR)$(PREFIX)/bin && \
	    $(INSTALL) docs/$$name.1 $(SHARE)/man/man1; } || exit 1; done; \
	    [ "$$there" = yes ] || { echo "$(PROGRAMS) has none of $(NAMES)" >&2 && exit 1; }
	$(INSTALL) docs/completions/acpi_dump.bash $(SHARE)/bash-completion/completions/acpi_dump
	$(INSTALL) docs/completions/_acpi_dump $(SHARE)/zsh/site-functions
	$(INSTALL) docs/completions/acpi_dump.fish $(SHARE)/fish/vendor_completions.d
	$(INSTALL) LICENSE dist/THIRD-PARTY docs/acpi_dump.schema.json docs/completions/_acpi_dump.ps1 $(DOC)
uninstall:
	rm -rf $(DESTDIR)$(LIBDIR)/cmake/zacpi $(DOC)
	rm -f $(addprefix $(DESTDIR)$(LIBDIR)/,libzacpi.a libzacpi-kernel.a pkgconfig/zacpi.pc pkgconfig/zacpi-kernel.pc) \
	    $(addprefix $(DESTDIR)$(PREFIX)/,$(wildcard include/*.h) include/zacpi.c bin/zacpi-subset $(NAMES:%=bin/%)) \
	    $(patsubst %,$(SHARE)/man/man1/%.1,$(NAMES) zacpi-subset) \
	    $(patsubst docs/%,$(SHARE)/man/%,$(wildcard docs/man3/*)) \
	    $(SHARE)/bash-completion/completions/acpi_dump $(SHARE)/zsh/site-functions/_acpi_dump \
	    $(SHARE)/fish/vendor_completions.d/acpi_dump.fish
clean:
	rm -rf $(OUT)
.PHONY: all kernel acpi_dump stick regenerate docs check install install-programs uninstall clean
