# make             the library, target/staticlib/libcrepulanter.a: proved again only where a source has changed
# make bench       the bench programs, target/bin/bench (X24F128) and target/bin/bench_x24128, likewise
# make module      the library's code as an LLVM module that names no processor, for targets/
# make install     header, library, pkg-config and CMake files under PREFIX (/usr/local)
#
# LIB=FILE takes a library that is built already. The gate is .ci/run; examples/ and outside/ have targets of their own.

PREFIX = /usr/local
LIB = target/staticlib/libcrepulanter.a
BENCH = target/bin/bench
BENCH_X24128 = target/bin/bench_x24128
VERSION = $(shell sed -n 's/^\#define CREP_VERSION "\(.*\)"/\1/p' include/crepulanter.h)

# The folders too: their times tell of files that went. What rt keeps, out/, is none of them, nor the folder that it stands in.
SOURCES = crates.txt $(shell find crates -mindepth 2 \( -name must-fail -o -name out \) -prune -o \( -type d -o -name '*.rt' -o -name '*.antt' \) -print)

.PHONY: library bench module install other-machine

library bench module:
	@:

# On another machine a link with the library fails, and says less.
ifneq ($(shell uname -m),x86_64)
library: $(if $(filter command,$(origin LIB)),,other-machine)
other-machine:
	@echo "note: this library is for x86-64 Linux and this machine is $(shell uname -m). For AArch64 Linux: make -C targets aarch64-linux," >&2
	@echo "      then LIB=$(CURDIR)/target/panel/aarch64-linux/libcrepulanter.a as a word of make" >&2
endif

# What rt says is shown only where it fails. The code is for any x86-64.
define prove
@mkdir -p $(@D)
@echo "rt $(1) in crates/$(2): proving and building, some minutes; only where a source has changed"
@(cd crates/$(2) && rt $(1) --cpu=x86-64 < /dev/null) > target/rt.log 2>&1 || { cat target/rt.log; exit 1; }
@cp crates/$(2)/out/$(3) $@
endef

# What is named on the command line is taken as it stands.
built = $(if $(filter command,$(origin $(1))),,$($(1)))
library: $(call built,LIB)
bench: $(call built,BENCH) $(call built,BENCH_X24128)

target/staticlib/libcrepulanter.a: $(SOURCES)
	$(call prove,lib,crepulanter_c,libcrepulanter_c.a)

target/bin/%: $(SOURCES)
	$(call prove,run,$*,$*)

module: target/targets/module.ll

target/targets/module.ll: $(SOURCES) targets/module.sh
	@sh targets/module.sh

# One rt at a time.
.NOTPARALLEL:

install: library
	install -d $(DESTDIR)$(PREFIX)/include $(DESTDIR)$(PREFIX)/lib/pkgconfig $(DESTDIR)$(PREFIX)/lib/cmake/crepulanter
	install -m 644 include/crepulanter.h $(DESTDIR)$(PREFIX)/include
	install -m 644 $(LIB) $(DESTDIR)$(PREFIX)/lib/libcrepulanter.a
	install -m 644 cmake/crepulanter-config.cmake $(DESTDIR)$(PREFIX)/lib/cmake/crepulanter
	sed 's/@VERSION@/$(VERSION)/' cmake/crepulanter.pc.in > $(DESTDIR)$(PREFIX)/lib/pkgconfig/crepulanter.pc
