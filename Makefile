# make bench   the main job: what the bench firmware does, against the model
# make board   firmware that knows nothing of the model, run on a board that is the model
# make wave    the same as a wave: a VCD file, for GTKWave
# make picture  what GTKWave shows of it, as docs/samples.png and docs/copier.png
# make ledger  a saved ledger as a table and, where it is long, as a timeline: make ledger FILE=..
# make check   a chain in a dump of the memory, whether it is sound: make check FILE=.. BASE=.. POINTER=..
# make mend    the good front part of a chain in such a dump: make mend FILE=.. BASE=.. POINTER=..
# make speed   how fast the library is, against two models, the moves alone and a plain copy
# make examples  the same forty lines in C, C++, Rust and Python
# make install   the header, both libraries, the pkg-config file and the manual page: make install PREFIX=..; make uninstall
# make test    the gate: every proof, every edit that must fail, every test
#
# SGDMA_LIB_DIR is the directory of libsgdma.a, where it is not the one to which tools/archive writes it.

.PHONY: bench board wave picture ledger check mend examples shared install uninstall speed test bridge-command target-syntax running compiler anew

SGDMA_LIB_DIR ?= target/staticlib
LIBRARY = $(SGDMA_LIB_DIR)/libsgdma.a
INCLUDE = include
BUILD = target/c
FIRMWARE_DIR = board/firmware
FIRMWARES = $(patsubst $(FIRMWARE_DIR)/%.c,%,$(wildcard $(FIRMWARE_DIR)/*.c))

CFLAGS = -O2 -g
WARNINGS = -Wall -Wextra -Wpedantic -Wconversion
include bench/processor.mk

bench: run-bench

board: $(addprefix $(BUILD)/board-,$(FIRMWARES))
	@apart=; for program in $^; do printf "$$apart"; apart='\n'; $(RUN) $$program || exit; done

# The run of one firmware as a wave: make wave FIRMWARE=copier; one that lies elsewhere with FIRMWARE_DIR=..
FIRMWARE = samples
STEM = $(BUILD)/$(FIRMWARE)

# The registers by their addresses, which the view shows in place of numbers, are those that the reports name. A board that was stopped
# leaves its wave too. What an earlier run has left is taken away first: a run that is killed would leave it, and it would look new.
wave: $(BUILD)/board-$(FIRMWARE)
	@rm -f $(STEM).reports $(STEM).registers $(STEM).vcd $(STEM).memory $(STEM).*.ledger
	@$(RUN) $< $(STEM); ended=$$?; [ -e $(STEM).reports ] || exit $$ended; \
		awk '$$1 != "step" { print substr($$3, 3), $$7, $$6 }' $(STEM).reports | sort -u >$(STEM).registers; \
		printf '\nThe wave is %s. To look at it: gtkwave %s\n' $(STEM).vcd '$(STEM).vcd $(wildcard board/$(FIRMWARE).gtkw)'; exit $$ended

picture: $(patsubst board/%.gtkw,picture-%,$(wildcard board/*.gtkw))

picture-%:
	@$(MAKE) -s wave FIRMWARE=$* >/dev/null
	@bash board/picture $(BUILD)/$*.vcd board/$*.gtkw docs/$*.png

# Builds and runs one of the C programs below.
run-%: $(BUILD)/%
	@$(RUN) $<

speed: $(LIBRARY)
	@cd harness && SGDMA_LIB_DIR='$(abspath $(SGDMA_LIB_DIR))' cargo run --release --offline --quiet --bin speed

test:
	@bash .ci/run

# Built anew where the code is newer: an old archive would be tested in silence.
target/staticlib/libsgdma.a: $(wildcard crates/*/src/*.rt)
	bash tools/archive

# The C programs.
LENT = $(INCLUDE)/sgdma.h $(LIBRARY)

$(BUILD)/bench: $(wildcard bench/*.c)
$(BUILD)/tests: $(filter-out tests/header.c,$(wildcard tests/*.c)) bench/core.c bench/timer.c
$(BUILD)/example: $(BUILD)/example.c
$(BUILD)/bridge: harness/bridge/bridge.c
$(BUILD)/ledger: $(wildcard ledger/*.c) dump/file.c bench/core.c bench/tell.c bench/progress.c
$(BUILD)/dump: $(wildcard dump/*.c) bench/core.c bench/tell.c

C_PROGRAMS = bench tests example bridge ledger dump

$(C_PROGRAMS:%=$(BUILD)/%): $(LENT) $(wildcard bench/*.h tests/*.h ledger/*.h dump/*.h)
	@mkdir -p $(@D)
	@$(CC) -std=c99 $(CFLAGS) $(WARNINGS) -I$(INCLUDE) -Ibench -Idump -o $@ $(filter %.c,$^) $(LIBRARY) $(LDLIBS)

# Firmware: a file that knows the access macros and nothing of the model. For the board its main has another name, and an access is a
# call; as for the target an access is a load or a store, and the compiler reads the file alone. It is compiled each time, since one of
# the same name may lie in another folder.
FIRMWARE_HEADERS = $(wildcard board/include/*.h board/include/*/*.h board/include/*/*/*.h)
OF_FIRMWARE = -std=c99 $(CFLAGS) $(WARNINGS) -I$(INCLUDE) -Iboard/include
BOARD = $(addprefix board/,board.c bus.c description.c guard.c interrupts.c saved.c stop.c vic.c) \
	$(addprefix bench/,core.c timer.c controller.c)
BOARD_HEADERS = $(FIRMWARE_HEADERS) $(LENT) $(wildcard board/*.h bench/*.h tests/*.h tests/board/*.h)
FOR_BOARD = $(OF_FIRMWARE) -pthread -Iboard/include/model -Iboard -Ibench -Itests

$(BUILD)/firmware-%.o: $(FIRMWARE_DIR)/%.c $(FIRMWARE_HEADERS) $(LENT) anew
	@mkdir -p $(@D)
	@$(CC) $(OF_FIRMWARE) -Iboard/include/model -Dmain=firmware_main -c -o $@ $<

$(BUILD)/board-tests: $(wildcard tests/board/*.c) tests/check.c board/wave.c bench/progress.c
$(FIRMWARES:%=$(BUILD)/board-%): $(BUILD)/board-%: $(BUILD)/firmware-%.o board/run.c board/workshop.c board/wave.c \
	bench/tell.c bench/beats.c bench/progress.c

$(BUILD)/board-tests $(FIRMWARES:%=$(BUILD)/board-%): $(BOARD) $(BOARD_HEADERS)
	@mkdir -p $(@D)
	@$(CC) $(FOR_BOARD) -DFIRMWARE_NAME='"$(@:$(BUILD)/board-%=%)"' -o $@ $(filter %.o %.c,$^) $(LIBRARY) $(LDLIBS)

# Reached where a firmware has no file: also where its program is there from before, which would be run in silence.
$(BUILD)/board-%: anew
	@echo 'there is no $(FIRMWARE_DIR)/$*.c' >&2; exit 1

target-syntax:
	@$(CC) $(OF_FIRMWARE) -Iboard/include/hardware -fsyntax-only $(FIRMWARES:%=$(FIRMWARE_DIR)/%.c)

anew:

# A saved ledger. With MEMORY, a dump of the window that begins at BASE, a record that its descriptor contradicts is marked. SVG is
# where the timeline of a long ledger is written.
SVG = $(BUILD)/ledger.svg

ledger: $(BUILD)/ledger
	$(if $(FILE),,$(error make ledger FILE=.., the file of a ledger; and MEMORY=.. with BASE=.., a dump and its bus address))
	@$(RUN) $< '$(FILE)' '$(SVG)' $(if $(MEMORY),'$(MEMORY)' '$(BASE)')

# A chain in a dump of the memory: FILE is the dump, which begins at the bus address BASE, and the chain begins at POINTER. The mended
# dump is a file of its own.
MENDED = $(FILE).mended

check mend: $(BUILD)/dump
	$(if $(FILE),,$(error make $@ FILE=.., a dump of the memory; with BASE=.. and POINTER=.., the bus addresses of the dump and of the chain))
	@$(RUN) $< $@ '$(FILE)' '$(BASE)' '$(POINTER)' $(if $(filter mend,$@),'$(MENDED)')

# What stands before a program that is run; and the compiler.
running:
	@echo $(RUN)

compiler:
	@echo $(CC)

# Installing. VERSION is the edition of the image, which the header tells: a library of another edition does not take this one's bytes.
# DESTDIR stands before PREFIX where the files are put together for another place. A PREFIX that is relative is one from here.
PREFIX = /usr/local
PLACE = $(abspath $(PREFIX))
VERSION := $(shell sed -n 's/^\#define SGDMA_EDITION  *\([0-9]*\) .*/\1/p' $(INCLUDE)/sgdma.h)
TO = $(DESTDIR)$(PLACE)
SHARED = $(BUILD)/libsgdma.so.$(VERSION)
INSTALLED = include/sgdma.h lib/libsgdma.a lib/libsgdma.so.$(VERSION) lib/libsgdma.so lib/pkgconfig/sgdma.pc share/man/man3/sgdma.3

$(SHARED): $(LIBRARY)
	@mkdir -p $(@D)
	@$(CC) -shared -o $@ -Wl,-soname,$(@F) -Wl,--whole-archive $< -Wl,--no-whole-archive $(LDLIBS)

shared: $(SHARED)

install: $(LENT) $(SHARED)
	@install -d $(sort $(dir $(INSTALLED:%=$(TO)/%)))
	@install -m 644 $(INCLUDE)/sgdma.h $(TO)/include
	@install -m 644 $(LIBRARY) $(SHARED) $(TO)/lib
	@ln -sf $(notdir $(SHARED)) $(TO)/lib/libsgdma.so
	@sed 's|@PREFIX@|$(PLACE)|; s|@VERSION@|$(VERSION)|' install/sgdma.pc.in >$(TO)/lib/pkgconfig/sgdma.pc
	@awk -f install/manual $(INCLUDE)/sgdma.h >$(TO)/share/man/man3/sgdma.3
	@printf 'installed: %s\n' $(INSTALLED:%=$(TO)/%)

# Folders that are empty then go too, but not those of the system.
FOLDERS = $(addprefix $(TO)/,include lib/pkgconfig lib share/man/man3 share/man share)

uninstall:
	@rm -f $(INSTALLED:%=$(TO)/%)
	@$(if $(filter /usr /usr/local,$(PLACE)),:,rmdir $(FOLDERS) 2>/dev/null || :)

# The same program in four languages.
LANGUAGES = c cpp rs py

examples:
	@for language in $(LANGUAGES); do printf '\nexamples/example.%s says:\n\n' $$language; $(MAKE) -s run-example-$$language || exit; done

$(BUILD)/example-c: examples/example.c $(LENT)
	@mkdir -p $(@D)
	@$(CC) -std=c99 $(CFLAGS) $(WARNINGS) -I$(INCLUDE) -o $@ $< $(LIBRARY) $(LDLIBS)

$(BUILD)/example-cpp: examples/example.cpp $(LENT)
	@mkdir -p $(@D)
	@$(CXX) -std=c++11 $(CFLAGS) $(WARNINGS) -I$(INCLUDE) -o $@ $< $(LIBRARY) $(LDLIBS)

$(BUILD)/example-rs: examples/example.rs $(LENT)
	@mkdir -p $(@D)
	@rustc --edition 2021 -D warnings -L $(SGDMA_LIB_DIR) -l static=sgdma -o $@ $<

run-example-py: examples/example.py $(SHARED)
	@PYTHONDONTWRITEBYTECODE=1 PYTHONPATH=python SGDMA_LIBRARY=$(SHARED) python3 $<

# The command by which the harness reaches the library where it cannot link it.
bridge-command: $(BUILD)/bridge
	@echo $(RUN) $(abspath $<)

# The header alone, under the standard that the name ends with.
$(BUILD)/header-%: tests/header.c $(LENT)
	@mkdir -p $(@D)
	@$(if $(findstring ++,$*),$(CXX) -x c++,$(CC) -x c) -std=$* $(CFLAGS) $(WARNINGS) -I$(INCLUDE) -o $@ $< \
		-x none $(LIBRARY) $(LDLIBS)

# The program that the README shows.
$(BUILD)/example.c: README.md
	@mkdir -p $(@D)
	@awk '/^## From C$$/ { here = 1 } /^```$$/ { code = 0 } here && code; /^```c$$/ { code = 1 }' $< >$@
