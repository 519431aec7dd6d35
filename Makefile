# The C side of the model: the tool, the tests, the bench.  `make help`.
#
# MODEL=proved  links the proved library, made by host/prove.sh
# MODEL=plain   links plain C in its place (bench/plain.c)
#
# V=1           shows the compiler's command lines, and all that the prover says
#
# The library is x86-64.  On another machine (`uname -m`) all is compiled for
# x86-64 by a cross compiler and run by an emulator; host/cross.sh sees that
# they are there.

SHELL  := /bin/bash

MODEL  ?= proved
SEED   ?= 1
TIMES  ?= 1
PREFIX ?= /usr/local
# make itself, for the scripts that test it (a line with MAKE runs under -n too)
MAKING := $(MAKE)
Q      := $(if $(filter-out 0,$(V)),,@)

# What is shown where no trace is named is from an old cabinet.
ifeq ($(origin TRACE),undefined)
  TRACE   := traces/screens/weighing.trace
  UPRIGHT ?= yes
endif
# $(call option,NAME,OPTION): the option if NAME is yes, nothing if it is left out.
option = $(if $(filter-out yes,$($(1))),$(error $(1) is yes or left out, not $($(1))),$(if $($(1)),$(2)))
SHOWN  = $(strip $(call option,UPRIGHT,--upright) $(call option,WIDE,--wide))

ifeq ($(shell uname -m),x86_64)
  NATIVE := yes
  CROSS  :=
  RUN    :=
else
  NATIVE := no
  CROSS  := x86_64-linux-gnu-
  RUN    := qemu-x86_64 -L /usr/x86_64-linux-gnu
endif

CC       := $(CROSS)gcc
CXX      := $(CROSS)g++
WARNINGS := -Wall -Wextra -Wpedantic -Wconversion -Wshadow -Werror
CFLAGS   := -std=c11 -g -O2 $(WARNINGS) $(EXTRA)
INCLUDE  := -Ihost -Ihost/tool -Ihost/compare -Ibench

# Objects of different models and flags lie apart.
OUT      := target/c/$(MODEL)$(VARIANT)
ORACLE   := oracle/target/release/oracle
LIBRARY  := target/staticlib/libhost.a

ifeq ($(MODEL),proved)
  LINKED := $(LIBRARY)
else ifeq ($(MODEL),plain)
  LINKED := $(OUT)/bench/plain_as_model.o
else
  $(error MODEL is proved or plain, not $(MODEL))
endif

objects  = $(patsubst %.c,$(OUT)/%.o,$(wildcard $(1)))

TOOL     := $(OUT)/ssd1815b
NO_PNG   := $(OUT)/ssd1815b-without-png
COMPARE  := $(OUT)/compare
CALLS    := $(OUT)/calls
DIFFER   := $(OUT)/differences
TUNED    := $(OUT)/compare-tuned
T_DIFFER := $(OUT)/differences-tuned
T_ROWS   := $(OUT)/everyrow-tuned
SAMPLES  := $(OUT)/samples
EVERYROW := $(OUT)/everyrow
PARTS    := $(OUT)/parts
LISTINGS := $(OUT)/listings
HEADER   := $(OUT)/header
WIDE_CALLS := $(addprefix $(OUT)/,wide widerun widepicture)
BENCH    := $(OUT)/bench/bench
ARCHIVE  := $(OUT)/libssd1815b.a
SHARED   := $(OUT)/libssd1815b.so

.PHONY: tool show shared install uninstall test compare calls check-tool \
        check-traces check-install check-python check-papers sanitize mutants bench \
        instructions traces spread oracle cross clean help
.DELETE_ON_ERROR:

tool: $(TOOL)
	@echo '$(TOOL)'

# From the start of new cabinets, or with UPRIGHT=yes of old ones; with WIDE=yes
# on the two chips of a wide terminal.  A refused trace (status 1) is shown too;
# what cannot be shown (2) fails.  A typed source (.txt) is made into a trace; it,
# and a trace that has one beside it, is told by its lines.
show: export TRACE := $(TRACE)
show: export SSD1815B_TOOL := $(RUN) $(TOOL)
show: $(TOOL)
	@if [[ $$TRACE = *.txt || $$TRACE = *.trace && -e $${TRACE%.trace}.txt ]]; \
	then traces/typed.py show $(SHOWN) "$$TRACE"; \
	else $(RUN) $(TOOL) show $(SHOWN) "$$TRACE"; \
	fi || [ $$? -eq 1 ]

help:
	@echo 'make               the tool: $(TOOL)'
	@echo 'make show          a screen: TRACE=FILE for another trace, FILE.trace or a typed FILE.txt,'
	@echo '                   and with it UPRIGHT=yes if it is from an old cabinet,'
	@echo '                   and WIDE=yes if it is of a wide terminal'
	@echo 'make shared        the library as a shared object: $(SHARED)'
	@echo 'make install       tool, header, archive, shared object, pkg-config file and man page'
	@echo '                   under PREFIX (now $(PREFIX)); DESTDIR is put before it'
	@echo 'make uninstall     removes just those files'
	@echo 'make test          all tests of the C side and of python/: the next six'
	@echo 'make compare       the library beside the oracle; SEED=2 TIMES=10 for more'
	@echo 'make calls         the start calls, the calls that the oracle has no cases for, where two screens differ, every row, the wide terminal, the header, the archive'
	@echo 'make check-tool    the tool: what it prints, and its status'
	@echo 'make check-traces  every trace, yours in traces/recorded too: oracle beside the tool'
	@echo 'make check-install an installation in an empty folder, and C programs built against it'
	@echo 'make check-python  the Python module: the samples of document 01, its errors, its README'
	@echo 'make check-papers  the commands of the papers, as they stand, in a copy; who starts a chip'
	@echo 'make sanitize      the tests of the C side with address and undefined-behaviour checks'
	@echo 'make mutants       damaged plain C, which the comparison must catch'
	@echo 'make bench         the library beside plain C: time'
	@echo 'make instructions  the library beside plain C: executed instructions'
	@echo 'make traces        makes traces/*/*.trace, *.list and the pack of crates/listpack again'
	@echo 'make spread        makes the table of crates/tracelisting/proofs/Spread.antt again from the oracle'
	@echo 'make clean         removes what was made'
	@echo 'MODEL=plain        with any of these: plain C in place of the library'
	@echo 'V=1                with any of these: the command lines of the compiler'

# A shared object with gcc's checks cannot be loaded by Python or installed.
test: compare calls check-tool check-traces \
      $(if $(VARIANT),,check-install check-python)
	@echo 'make test: all passed ($(MODEL))'

# The second stream is for the limits of the bench: tuned C, which has just the
# two comparing calls, and the SSE2 loop, the two drawing calls.
compare: $(COMPARE) $(TUNED) oracle
	host/compare/compare.sh $(ORACLE) $(SEED) $(TIMES) -- $(RUN) $(COMPARE)
	bench/tuned.sh $(ORACLE) $(SEED) $(TIMES) -- $(RUN) $(TUNED)

calls: $(CALLS) $(DIFFER) $(T_DIFFER) $(SAMPLES) $(EVERYROW) $(T_ROWS) $(WIDE_CALLS) $(HEADER)
	$(RUN) $(CALLS)
	$(RUN) $(DIFFER)
	$(RUN) $(T_DIFFER)
	$(RUN) $(SAMPLES)
	$(RUN) $(EVERYROW)
	$(RUN) $(T_ROWS)
	$(RUN) $(OUT)/wide
	$(RUN) $(OUT)/widerun
	$(RUN) $(OUT)/widepicture
	$(RUN) $(HEADER)
ifeq ($(MODEL),proved)
	CC=$(CC) NM=$(CROSS)nm OBJDUMP=$(CROSS)objdump host/test/library.sh $(LIBRARY) $(RUN)
endif
	$(if $(VARIANT),,CC=$(CC) AR=$(CROSS)ar OBJDUMP=$(CROSS)objdump host/test/divides.sh)

check-tool: $(TOOL) $(NO_PNG) $(PARTS) $(LISTINGS)
	$(RUN) $(PARTS)
	$(RUN) $(LISTINGS) $(filter-out traces/wide/%,$(wildcard traces/*/*.list))
	host/test/tool.sh $(RUN) $(TOOL)
	host/test/starts.sh $(RUN) $(TOOL)
	host/test/refusals.sh $(RUN) $(TOOL)
	host/test/pictures.sh '$(RUN) $(TOOL)' '$(RUN) $(NO_PNG)'
	host/test/diff.sh '$(RUN) $(TOOL)' '$(RUN) $(NO_PNG)'
	host/test/wide.sh '$(RUN) $(TOOL)' '$(RUN) $(NO_PNG)'
	host/test/terminal.sh $(RUN) $(TOOL)
	MODEL=$(MODEL) MAKE=$(MAKING) host/test/makefile.sh

# The scripts are tested once: a variant of the C says nothing of them.
check-traces: $(TOOL) oracle
	traces/check.sh $(ORACLE) $(RUN) $(TOOL)
	$(if $(VARIANT),,traces/test.sh $(ORACLE) $(RUN) $(TOOL))
	traces/differ.sh $(ORACLE) $(RUN) $(TOOL)

check-install: $(TOOL) $(ARCHIVE) $(SHARED)
	MAKE=$(MAKING) MODEL=$(MODEL) CC=$(CC) install/test.sh $(RUN)

# Off x86-64 the machine's Python cannot load the library, so there the C is
# plain and native.
ifeq ($(NATIVE),yes)
check-python: $(SHARED)
	SSD1815B_LIBRARY=$(abspath $(SHARED)) python/test_ssd1815b.py
else
check-python:
	$(MAKE) check-python MODEL=plain NATIVE=yes CROSS= RUN= CC=gcc VARIANT=-native
endif

check-papers:
	.ci/starts
	.ci/papers
	host/test/papers.sh
	host/test/callers.sh
	host/test/contracts.sh

# The library itself is not compiled with these checks; its steps outside what
# it is lent are seen by the rooms of host/compare/room.h.  Off x86-64 the
# checks do not run under the emulator, so there the C is plain and native.
sanitize:
ifeq ($(NATIVE),yes)
	$(MAKE) test MODEL=$(MODEL) VARIANT=-sanitize \
	  EXTRA='-O1 -fsanitize=address,undefined -fno-sanitize-recover=all'
else
	$(MAKE) test MODEL=plain NATIVE=yes CROSS= RUN= CC=gcc CXX=g++ \
	  VARIANT=-sanitize \
	  EXTRA='-O1 -fsanitize=address,undefined -fno-sanitize-recover=all'
endif

# Plain C alone is damaged, which runs on the machine itself.
mutants: oracle
	bench/mutants.sh $(ORACLE) gcc

bench: $(BENCH)
	$(RUN) $(BENCH)

instructions: $(BENCH)
	bench/instructions.sh $(BENCH) $(RUN)

traces: oracle
	traces/make.py
	traces/list.sh $(ORACLE)
	traces/pack.py

spread: oracle
	oracle/spread.py

oracle:
	cargo build --quiet --release --manifest-path oracle/Cargo.toml

cross:
ifneq ($(NATIVE),yes)
	@host/cross.sh
endif

clean:
	rm -rf target/c

# ---- how things are built ----

$(LIBRARY): crates.txt $(wildcard crates/*/src/*.rt) | cross
	@AR='$(CROSS)ar' OBJCOPY='$(CROSS)objcopy' GOALS='$(MAKECMDGOALS)' V='$(V)' host/prove.sh

$(TOOL): $(call objects,host/tool/*.c) $(LINKED)
COMPARED := $(call objects,host/compare/*.c) \
            $(addprefix $(OUT)/host/tool/,listing.o played.o registers.o)
$(COMPARE): $(COMPARED) $(LINKED)
$(CALLS): $(OUT)/host/test/calls.o $(OUT)/host/compare/room.o $(LINKED)
$(DIFFER): $(OUT)/host/test/differences.o $(OUT)/host/compare/room.o $(LINKED)
# Tuned C in place of the two comparing calls, and the SSE2 loop in place of the
# two drawing calls (bench/as_tuned.h).
$(TUNED): $(patsubst %/draws.o,%/draws_tuned.o,$(COMPARED:%/differences.o=%/differences_tuned.o)) \
          $(OUT)/bench/tuned.o $(OUT)/bench/sse2.o $(LINKED)
$(T_DIFFER): $(OUT)/host/test/differences_tuned.o $(OUT)/host/compare/room.o \
             $(OUT)/bench/tuned.o
$(T_ROWS): $(OUT)/host/test/everyrow_tuned.o $(OUT)/bench/sse2.o $(LINKED)
$(TUNED) $(T_DIFFER) $(T_ROWS):
	$(Q)$(CC) $(CFLAGS) $^ -o $@

$(SAMPLES): $(OUT)/host/test/samples.o $(LINKED)
$(EVERYROW): $(OUT)/host/test/everyrow.o $(LINKED)
$(WIDE_CALLS): $(OUT)/%: $(OUT)/host/test/%.o $(OUT)/host/test/twochips.o \
         $(OUT)/host/compare/room.o $(LINKED)
$(PARTS): $(OUT)/host/test/parts.o \
          $(addprefix $(OUT)/host/tool/,played.o progress.o replay.o) $(LINKED)
$(LISTINGS): $(OUT)/host/test/listings.o $(OUT)/host/tool/stored.o $(LINKED)
# The tool as it is where libstb-dev is missing.
$(NO_PNG): $(filter-out %/png.o,$(call objects,host/tool/*.c)) \
           $(OUT)/host/tool/no_png.o $(LINKED)
$(BENCH): $(addprefix $(OUT)/bench/,bench.o workloads.o plain.o tuned.o sse2.o) \
          $(LINKED)

$(TOOL) $(NO_PNG) $(COMPARE) $(CALLS) $(DIFFER) $(SAMPLES) $(EVERYROW) $(WIDE_CALLS) $(PARTS) $(LISTINGS) $(BENCH):
	$(Q)$(CC) $(CFLAGS) $^ -o $@

# The header as C++ takes it.
$(HEADER): host/test/header.cpp host/ssd1815b.h $(LINKED) | cross
	@mkdir -p $(@D)
	$(Q)$(CXX) -std=c++11 -g -O2 -Wall -Wextra -Wpedantic -Werror $(EXTRA) \
	  $(INCLUDE) $< $(LINKED) -o $@

$(OUT)/%.o: %.c | cross
	@mkdir -p $(@D)
	$(Q)$(CC) $(CFLAGS) $(INCLUDE) -MMD -MP -c $< -o $@

# The tool says which model it is linked with.
$(OUT)/host/tool/help.o: CFLAGS += -DMODEL='"$(MODEL)"'

$(OUT)/host/tool/no_png.o: host/tool/png.c | cross
	@mkdir -p $(@D)
	$(Q)$(CC) $(CFLAGS) $(INCLUDE) -DWITHOUT_PNG -MMD -MP -c $< -o $@

$(OUT)/%_tuned.o: %.c | cross
	@mkdir -p $(@D)
	$(Q)$(CC) $(CFLAGS) $(INCLUDE) -include bench/as_tuned.h -MMD -MP -c $< -o $@

# What is measured is compiled as well as gcc can.
$(addprefix $(OUT)/bench/,plain.o plain_as_model.o tuned.o sse2.o): CFLAGS += -O3

$(OUT)/bench/plain_as_model.o: bench/plain.c | cross
	@mkdir -p $(@D)
	$(Q)$(CC) $(CFLAGS) $(INCLUDE) -include bench/as_model.h -MMD -MP -c $< -o $@

# ---- the library as others link it ----

VERSION := $(shell sed -n 's/^.define SSD1815B_VERSION  *"\(.*\)".*/\1/p' host/ssd1815b.h)
SONAME  := libssd1815b.so.$(firstword $(subst ., ,$(VERSION)))

ifeq ($(MODEL),proved)
  WHOLE   := -Wl,--whole-archive $(LIBRARY) -Wl,--no-whole-archive
  MEMBERS := $(LIBRARY)
else
  WHOLE   := $(OUT)/bench/plain_shared.o
  MEMBERS := $(WHOLE)
endif

shared: $(SHARED)
	@echo '$(SHARED)'

# Just the calls of the header are exported (install/exports.map).
$(SHARED): $(MEMBERS) install/exports.map host/ssd1815b.h
	@mkdir -p $(@D)
	$(Q)$(CC) -shared -Wl,-soname,$(SONAME) -Wl,-z,defs -Wl,-z,text \
	  -Wl,--version-script=install/exports.map $(WHOLE) -o $@

$(OUT)/bench/plain_shared.o: CFLAGS += -O3 -fPIC
$(OUT)/bench/plain_shared.o: bench/plain.c | cross
	@mkdir -p $(@D)
	$(Q)$(CC) $(CFLAGS) $(INCLUDE) -include bench/as_model.h -MMD -MP -c $< -o $@

ifeq ($(MODEL),proved)
$(ARCHIVE): $(LIBRARY)
	@mkdir -p $(@D)
	$(Q)cp $< $@
else
$(ARCHIVE): $(LINKED)
	$(Q)rm -f $@ && $(CROSS)ar rcs $@ $<
endif

$(OUT)/ssd1815b.pc: install/ssd1815b.pc.in host/ssd1815b.h FORCE
	@mkdir -p $(@D)
	$(Q)sed -e 's|@PREFIX@|$(abspath $(PREFIX))|' -e 's|@VERSION@|$(VERSION)|' \
	  -e 's|@MODEL@|$(MODEL)|' $< > $@

.PHONY: FORCE
FORCE:

# ---- installing ----

ROOT      := $(DESTDIR)$(abspath $(PREFIX))
INSTALLED := bin/ssd1815b include/ssd1815b.h lib/libssd1815b.a lib/$(SONAME) \
             lib/libssd1815b.so lib/pkgconfig/ssd1815b.pc \
             share/man/man1/ssd1815b.1

install: $(TOOL) $(ARCHIVE) $(SHARED) $(OUT)/ssd1815b.pc
	$(Q)mkdir -p $(addprefix $(ROOT)/,$(sort $(dir $(INSTALLED))))
	$(Q)install -m 755 $(TOOL) $(ROOT)/bin/ssd1815b
	$(Q)install -m 644 host/ssd1815b.h $(ROOT)/include/ssd1815b.h
	$(Q)install -m 644 $(ARCHIVE) $(ROOT)/lib/libssd1815b.a
	$(Q)install -m 755 $(SHARED) $(ROOT)/lib/$(SONAME)
	$(Q)ln -sf $(SONAME) $(ROOT)/lib/libssd1815b.so
	$(Q)install -m 644 $(OUT)/ssd1815b.pc $(ROOT)/lib/pkgconfig/ssd1815b.pc
	$(Q)install -m 644 install/ssd1815b.1 $(ROOT)/share/man/man1/ssd1815b.1
	@printf '%s\n' $(addprefix $(ROOT)/,$(INSTALLED))

uninstall:
	$(Q)rm -f $(addprefix $(ROOT)/,$(INSTALLED))

-include $(wildcard $(OUT)/*/*.d $(OUT)/*/*/*.d)
