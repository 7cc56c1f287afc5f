# make            prove the library and the demands, build the library and the tool, and play a short day with them
# make build      the same without the day
# make library    the same without the tool; needs no C compiler
# make proofs     prove all crates: the programs, the plain tree and the bench cases too
# make replay     build the program that replays a day's log (request 3): build/replay, or build/TARGET/replay for the other processor
# make compare    build the program that plays a log on both trees (request 12): build/compare, or build/TARGET/compare
# make check      pass all tests: the gate, a plain `rt ci`, and the tests of the compiled code
# make refusals   try the must-fail edits alone, which the gate tries too (scripts/refusals)
# make long-check of the tests of the compiled code those that take longest: costs, pages, the other processor under an emulator
# make seconds    write what the last `make check` and the proofs before it took into CONTRIBUTING.md (scripts/seconds)
# make search     time the search in one node (bench/search.c)
# make wear       play a year of a camera's life and draw how often each block is erased (bench/wear.c, docs/WEAR.md)
# make bound      insert keys in several orders and print how many pages go beyond one a key (bench/bound.c, docs/BENCHMARKS.md)
# make pages      play three logs on both trees and draw how many pages an update programs (bench/pages.c, docs/BENCHMARKS.md)
# make plain      build the archive of request 12's plain tree, which tests and measurements alone use
# make cost       count what a list costs after the image is judged (bench/cost.c, docs/BENCHMARKS.md)
# make cuts       lose power 10,000,000 times between the stores of long logs on a simulated chip (tests/nand/many.sh); an hour or two
# make install    header, library, pkg-config file and tool, under PREFIX; make uninstall takes them away
# make clean      remove all that was built and proved
#
# TARGET=x86_64 or TARGET=aarch64 is the processor that is built for; this machine's own if it is not given.

HOST := $(shell uname -m)
TARGET ?= $(HOST)
PREFIX ?= /usr/local
CFLAGS ?= -O2
STRICT = -std=c99 -Wall -Wextra -pedantic
VERSION = $(shell sed -n 's/^.define MUTREE_VERSION "\(.*\)"/\1/p' c/mutree.h)

# The compiler for the processor, what its programs are run with, and where the tool is written. CC is this machine's own compiler.
CC_x86_64 ?= x86_64-linux-gnu-gcc
CC_aarch64 ?= aarch64-linux-gnu-gcc
RUN_x86_64 ?= qemu-x86_64
RUN_aarch64 ?= qemu-aarch64
ifeq ($(TARGET),$(HOST))
COMPILER = $(CC)
RUN =
LINK =
TOOL = build/mutree
REPLAY = build/replay
COMPARE = build/compare
else
COMPILER = $(CC_$(TARGET))
RUN = $(RUN_$(TARGET))
LINK = -static
TOOL = build/$(TARGET)/mutree
REPLAY = build/$(TARGET)/replay
COMPARE = build/$(TARGET)/compare
endif
ifeq ($(filter x86_64 aarch64,$(TARGET)),)
$(error TARGET is x86_64 or aarch64, not $(TARGET))
endif

LIBRARY = build/$(TARGET)/libmutree.a
PLAIN = build/$(TARGET)/libplain.a
TOOL_SOURCES = $(wildcard c/*.c)
TOOL_HEADERS = $(wildcard c/*.h)
PROOFS = crates.txt $(shell find crates -name out -prune -o -type f -print)
# What is asked for before ten minutes of proving, and not after: the archive alone needs no compiler.
NEEDS = rt $(if $(filter library plain,$(MAKECMDGOALS)),,"$(COMPILER)")

.PHONY: day build library proofs replay compare check refusals long-check seconds search plain wear bound pages cost cuts install uninstall \
	clean settings
.DELETE_ON_ERROR:

ifeq ($(TARGET),$(HOST))
day: build
	sh c/day.sh $(TOOL)
else
day: build
	@echo "$(TOOL) is for $(TARGET) and this machine is $(HOST): no day is played"
endif

build: $(TOOL)

library: $(LIBRARY)

# What is proved for what: the library with the demands, or a crate by its name. A test run in a clean checkout builds from what the gate
# proved (tests/run writes the files then).
CRATES_library = camera_c theory_service
CRATES_all =
.PRECIOUS: build/proved/%
build/proved/%: $(PROOFS)
	@sh scripts/needs $(NEEDS)
	@sh scripts/prove $(if $(filter undefined,$(origin CRATES_$*)),$*,$(CRATES_$*))
	@mkdir -p build/proved
	@touch $@

proofs: build/proved/all

COMPILED = scripts/compile scripts/kit
ARCHIVE = scripts/archive $(COMPILED)
PROGRAM = scripts/program scripts/system.c $(COMPILED)
$(LIBRARY): build/proved/library $(ARCHIVE)
	sh scripts/archive $(TARGET) $@

$(TOOL): $(LIBRARY) $(TOOL_SOURCES) $(TOOL_HEADERS)
	@sh scripts/needs "$(COMPILER)" > /dev/null
	$(COMPILER) $(STRICT) $(CFLAGS) $(TOOL_SOURCES) $(LIBRARY) -o $@

# Request 3's program, and request 12's.
replay: $(REPLAY)

compare: $(COMPARE)

$(REPLAY): build/proved/replay $(PROGRAM)
	sh scripts/program $(TARGET) $@ "$(COMPILER)" replay

$(COMPARE): build/proved/compare $(PROGRAM)
	sh scripts/program $(TARGET) $@ "$(COMPILER)" compare

# The one place from which the tests of the compiled code have their compiler: lines for sh to read.
settings:
	@printf "HOST='%s'\nCC='%s'\nRUN='%s'\nLINK='%s'\nLIBRARY='%s'\nPLAIN='%s'\nTOOL='%s'\nREPLAY='%s'\nCOMPARE='%s'\n" '$(HOST)' '$(COMPILER)' '$(RUN)' '$(LINK)' '$(LIBRARY)' '$(PLAIN)' '$(TOOL)' '$(REPLAY)' '$(COMPARE)'

check:
	sh tests/run

refusals:
	@sh scripts/needs rt
	sh scripts/refusals

long-check: build
	sh tests/run --long

seconds:
	sh scripts/seconds

# The crate bench_search has the search alone, bench_search_c its archive.
build/$(TARGET)/libsearch.a: build/proved/bench_search_c $(ARCHIVE)
	sh scripts/archive $(TARGET) $@ bench_search_c

build/$(TARGET)/search: bench/search.c build/$(TARGET)/libsearch.a
	$(COMPILER) $(STRICT) $(CFLAGS) $(LINK) $^ -o $@

search: build/$(TARGET)/search
	$(RUN) $<

build/$(TARGET)/wear: bench/wear.c bench/life.c bench/life.h c/mutree.h $(LIBRARY)
	$(COMPILER) $(STRICT) $(CFLAGS) $(LINK) bench/wear.c bench/life.c $(LIBRARY) -o $@

wear: build/$(TARGET)/wear
	$(RUN) $< --svg docs/wear.svg docs/wear-before.txt > docs/wear-after.txt

# The tree is counted by the judge of the independent test.
build/$(TARGET)/bound: bench/bound.c tests/independent/judge.c tests/independent/code.c tests/independent/judge.h tests/independent/code.h c/mutree.h $(LIBRARY)
	$(COMPILER) $(STRICT) $(CFLAGS) $(LINK) bench/bound.c tests/independent/judge.c tests/independent/code.c $(LIBRARY) -o $@

bound: build/$(TARGET)/bound
	$(RUN) $<

# Request 12: the crate plain_camera has the plain tree's calls, plain_camera_c their archive.
plain: $(PLAIN)

$(PLAIN): build/proved/plain_camera_c $(ARCHIVE)
	sh scripts/archive $(TARGET) $@ plain_camera_c

PAGES_SOURCES = bench/pages.c bench/life.c tests/plain/seen.c
build/$(TARGET)/pages: $(PAGES_SOURCES) bench/life.h tests/plain/plain.h tests/plain/seen.h c/mutree.h $(PLAIN) $(LIBRARY)
	$(COMPILER) $(STRICT) $(CFLAGS) $(LINK) $(PAGES_SOURCES) $(PLAIN) $(LIBRARY) -o $@

pages: build/$(TARGET)/pages
	$(RUN) $< --svg docs/pages.svg docs/pages-small.svg > docs/pages.txt

build/$(TARGET)/cost: bench/cost.c c/mutree.h $(LIBRARY)
	$(COMPILER) $(STRICT) $(CFLAGS) $(LINK) bench/cost.c $(LIBRARY) -o $@

cost: build/$(TARGET)/cost
	$(RUN) $<

cuts: $(LIBRARY)
	sh tests/nand/many.sh

install: build
	install -d $(DESTDIR)$(PREFIX)/include $(DESTDIR)$(PREFIX)/lib/pkgconfig $(DESTDIR)$(PREFIX)/bin
	install -m 644 c/mutree.h $(DESTDIR)$(PREFIX)/include/mutree.h
	install -m 644 $(LIBRARY) $(DESTDIR)$(PREFIX)/lib/libmutree.a
	printf 'prefix=%s\nlibdir=$${prefix}/lib\nincludedir=$${prefix}/include\n\nName: mutree\nDescription: a proved mu-Tree index on raw NAND\nVersion: %s\nLibs: -L$${libdir} -lmutree\nCflags: -I$${includedir}\n' '$(PREFIX)' '$(VERSION)' > $(DESTDIR)$(PREFIX)/lib/pkgconfig/mutree.pc
	install -m 755 $(TOOL) $(DESTDIR)$(PREFIX)/bin/mutree

uninstall:
	rm -f $(DESTDIR)$(PREFIX)/include/mutree.h $(DESTDIR)$(PREFIX)/lib/libmutree.a
	rm -f $(DESTDIR)$(PREFIX)/lib/pkgconfig/mutree.pc $(DESTDIR)$(PREFIX)/bin/mutree

clean:
	rm -rf build crates/*/out
