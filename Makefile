# The lines '# make NAME: ..' are what make help prints.
.PHONY: help quick test run soak bench firmware firmware-run firmware-count dist fmt clean

# make help: this list
help:
	@sed -n 's/^# make \([^:]*\): /\1: /p' Makefile | awk -F ': ' '{ name = $$1; sub(/^[^:]*: /, ""); printf "%-30s %s\n", "make " name, $$0 }'

# make run: prove and build the listing program, and run the worked example (rule T7) on it; 5 to 9 minutes the first time
run:
	@mkdir -p target && tests/progress target/run.log tools/check listing >&2
	@$(MAKE) --no-print-directory target/listing
	@target/listing crates/listing/stdin

# make test: prove every crate, try the edits, run every test; about half an hour; the last line is 'N passed, M failed'
test:
	@tests/run

# target/listing: the proved program as it was compiled, with listing/main.c around it
PROVED = target/obj/listing.o
# what std calls besides the C library
KIT_C = $(addprefix $(dir $(shell rt doc))c/,libos_c.a liblibc_c.a)
target/listing: listing/main.c include/cbqri.h $(PROVED)
	@objcopy --redefine-sym main=proved_listing --redefine-sym read=listing_read --redefine-sym write=listing_write $(PROVED) $@.o
	@cc -std=c11 -Wall -Wextra -Wpedantic -O2 -Iinclude $< $@.o $(KIT_C) -o $@

# a crate's sources
sources = $(shell find $(1) -name out -prune -o \( -name '*.rt' -o -name '*.antt' \) -print)
$(PROVED): tools/build KIT crates.txt $(call sources,crates)
	@mkdir -p target && tools/build listing $@ >target/listing.log 2>&1 || { tail -n 20 target/listing.log; exit 1; }

# make quick: before a commit: what changed since BASE (origin/main, else the commit before the last) and all above it
quick:
	@tests/quick

# make soak: after make test: random calls and lines for MINUTES (10), and the further edits of tests/more-edits
soak:
	@tests/soak

# make bench: after make test: the listing program and the library beside plain and tuned C, as ratios
bench: target/listing
	@$(MAKE) --no-print-directory -C bench LIB=$(CURDIR)/target/staticlib/libcbqri.a LISTING=$(CURDIR)/target/listing

# make firmware: the C library for rv64, target/firmware/libcbqri.a, of the module that was proved
firmware:
	@$(MAKE) --no-print-directory -C firmware

# make firmware-run: the example emulator in C on qemu's bare RISC-V board
firmware-run:
	@$(MAKE) --no-print-directory -C firmware run

# make firmware-count: instructions of each call on that board
firmware-count:
	@$(MAKE) --no-print-directory -C firmware count

# make dist: target/dist/dipperchest-VERSION.tar.gz, all that is used without the kit, after make test
dist: target/listing
	@$(MAKE) --no-print-directory -C firmware > target/dist.log 2>&1 || { cat target/dist.log; exit 1; }
	@dist/archive

# make install, make uninstall: header, library, pkg-config file and listing below PREFIX=/usr/local, after make test
LIB = target/staticlib/libcbqri.a
LISTING = target/listing
include include/install.mk

$(LIB):
	@echo "$@ is not there: run make test, which proves and builds it"; exit 2

# make fmt: every .rt and .antt file in rt fmt's layout
fmt:
	@for crate in crates/*/; do (cd "$$crate" && rt fmt) || exit 1; done

# make clean: removes target/ and each crate's out/, with all that was proved
clean:
	rm -rf target crates/*/out
