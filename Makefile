# make            build, and play the example conversations on the proved library
# make help       these lines
# make test       the gate
# make build      the proved library, the host programs over it, the second program
# make library    the proved library; where nothing of it has changed, nothing is done
# make host       the library, and the programs over it in C: play, tell, board, inputs, bench
# make arm        the library, and play and tell over it, for each ARM processor: below target/TARGET/
# make second     the second program
# make bench      what a call costs: instructions, against the second program, and bytes of stack
# make soak       the library beside the second program on scripts from fresh seeds, for SECONDS=60
# make fuzz       the C face under libFuzzer, for SECONDS=60
# make check-fuzz the fuzzer finds faults that are planted
# make mutants    COUNT=300 small changes of the code by SEED=1, in all crates or CRATE=: does the prover notice them
# make pictures   the pictures of docs/, from the files that they are about
# make install    the header, the library and its pkg-config file below PREFIX=/usr/local, in DESTDIR where given
# make uninstall  what `make install` puts there is removed: the same PREFIX and DESTDIR
# make fmt        the sources of the crates and of the second program in their layout
# make clean      removes target/ and what the proofs left in crates/*/out: all is proved and built again
# library, host, soak, bench and install take TARGET=aarch64-linux-gnu, arm-linux-gnueabihf or thumbv7em-none-eabihf
VERSION = 0.1.0
PREFIX = /usr/local
SECONDS = 60
COUNT = 300
SEED = 1
SECOND = target/second/release/second
CRATES = klarvesimo firmware whose writing
AT = target/staticlib
HOST = target/host
RUN = $(HOST)
BUILT = play tell board inputs bench
AR = ar
PRODUCT = $(AT)/libklarvesimo.a $(AT)/libfirmware.a $(AT)/libwhose.a
LIBRARY = $(CRATES:%=$(AT)/lib%.a)
CFLAGS = -std=c99 -O2 -Wall -Wextra -Werror -Iinclude
SCRIPTS = host/command.c host/channel.c host/level.c host/script.c host/number.c host/message.c
CHECKED = host/checked.c host/lend.c host/score.c
PLAY = host/play.c host/calls.c host/usage.c $(CHECKED) $(SCRIPTS)
INPUTS = host/inputs.c host/input.c host/usage.c $(SCRIPTS)
TELL = host/tell.c host/readable.c host/prompts.c host/ledger.c host/score.c host/usage.c $(SCRIPTS)
BOARD = host/board.c host/connection.c host/outbox.c host/names.c host/handled.c host/engine.c host/log.c host/now.c \
  host/usage.c host/message.c host/number.c host/readable.c host/channel.c host/level.c host/score.c
BENCH = host/bench.c host/stack.c host/usage.c
PROGRAMS = $(addprefix $(HOST)/,play tell board inputs bench)
INSTALLED = include/klarvesimo.h lib/libklarvesimo.a lib/pkgconfig/klarvesimo.pc

# for another processor: below target/TARGET/; there run/ has the programs as qemu runs them
TARGETS = $(shell tools/build-target --list)
ARM = aarch64-linux-gnu-gcc arm-linux-gnueabihf-gcc qemu-aarch64 qemu-arm
HERE = all fuzz check-fuzz test
ifdef TARGET
ifeq ($(filter $(TARGET),$(TARGETS)),)
$(error no TARGET '$(TARGET)'; those known: $(TARGETS))
endif
ifneq ($(filter $(HERE),$(or $(MAKECMDGOALS),all)),)
$(error '$(MAKECMDGOALS)' is for this machine alone, and takes no TARGET)
endif
LINUX = $(if $(filter thumb%,$(TARGET)),arm-linux-gnueabihf,$(TARGET))
QEMU = $(if $(filter aarch64%,$(TARGET)),qemu-aarch64,qemu-arm)
AT = target/$(TARGET)
HOST = $(AT)
RUN = $(AT)/run
BUILT = play tell
CC = $(LINUX)-gcc
AR = $(shell dirname "$$(rt doc)")/toolchain/bin/llvm-ar
CFLAGS += -static
# no system runs on a Cortex-M4, but its code is also that of an ARMv7-A: only the note of the profile is taken off
ifneq ($(LINUX),$(TARGET))
LIBRARY = $(CRATES:%=$(AT)/linux/lib%.a)
endif
endif

.PHONY: all help build library host arm second bench soak fuzz check-fuzz mutants pictures install uninstall test fmt
.PHONY: clean tools tools-host tools-second tools-install tools-test tools-arm tools-bench tools-fuzz tools-soak
.PHONY: absolute

all: host
	@for script in transfer confirmation; do target/host/tell examples/$$script.script || exit 1; done

help:
	@sed -n '1,/^[^#]/s/^# //p' Makefile

build: tools-host tools-second host second

# what a target needs beside the sources, looked for before anything is proved
tools:
	@tools/need rt $(if $(TARGET),,$(firstword $(CC)))

tools-host: tools
	@tools/need --install $(if $(TARGET),$(CC) $(QEMU))

tools-second:
	@tools/need cargo

tools-install: tools
	@tools/need $(AR)

tools-test: tools-host tools-second tools-arm
	@tools/need gcc python3
	@tools/need --install clang pkg-config nm objdump arm-none-eabi-gcc qemu-system-arm

tools-arm:
	@tools/need --install $(ARM)

tools-bench:
	@tools/need python3 objdump
	@tools/need --install valgrind

tools-soak:
	@tools/need python3

tools-fuzz:
	@tools/need python3 objdump
	@tools/need --install clang

# tools/group: where make is ended, what it started ends too
library: tools
	@tools/group tools/build-library $(PROVED) $(CRATES)
ifdef TARGET
	@tools/group tools/build-target $(TARGET) $(CRATES)
endif

host: tools-host $(BUILT:%=$(HOST)/%)

arm: tools-arm library
	@for target in $(TARGETS); do $(MAKE) --no-print-directory host TARGET=$$target || exit 1; done

$(HOST)/play: $(PLAY)
$(HOST)/tell: $(TELL)
$(HOST)/board: $(BOARD)
$(HOST)/inputs: $(INPUTS)
$(HOST)/bench: $(BENCH)
$(PROGRAMS): $(HOST)/made-of
	@$(CC) $(CFLAGS) -o $@ $(filter %.c,$^) $(LIBRARY)
ifdef TARGET
	@mkdir -p $(RUN)
	@printf '#!/bin/sh\nexec $(QEMU) "%s" "$$@"\n' '$(CURDIR)/$@' >$(RUN)/$(@F) && chmod +x $(RUN)/$(@F)
endif

$(AT)/linux/%.a: $(AT)/%.a
	@mkdir -p $(@D)
	@$(LINUX)-objcopy --remove-section .ARM.attributes $< $@

# changes where one of these files has other bytes, has come or has gone, or the compiler is called otherwise
$(HOST)/made-of: library $(LIBRARY)
	@mkdir -p $(HOST)
	@{ echo '$(CC) $(CFLAGS)'; sha256sum Makefile host/*.[ch] include/*.h $(LIBRARY); } >$@.new
	@if cmp -s $@.new $@; then rm $@.new; else mv $@.new $@; fi

# the eight calls in one archive
$(AT)/install/libklarvesimo.a: $(PRODUCT)
	@rm -rf $(@D) && mkdir -p $(@D)
	@cd $(@D) && for part in $(PRODUCT:$(AT)/%=../%); do $(AR) x $$part; done && $(AR) rcs $(@F) *.o && rm -f *.o

$(CRATES:%=$(AT)/lib%.a): library ;

absolute:
	@case '$(PREFIX)' in /*) ;; *) echo "install: PREFIX is no absolute path: '$(PREFIX)'" >&2; exit 2;; esac

install: absolute tools-install $(AT)/install/libklarvesimo.a
	@install -d '$(DESTDIR)$(PREFIX)/include' '$(DESTDIR)$(PREFIX)/lib/pkgconfig'
	@install -m 644 include/klarvesimo.h '$(DESTDIR)$(PREFIX)/include'
	@install -m 644 $(AT)/install/libklarvesimo.a '$(DESTDIR)$(PREFIX)/lib'
	@sed 's|@PREFIX@|$(PREFIX)|; s|@VERSION@|$(VERSION)|' klarvesimo.pc.in >$(AT)/install/klarvesimo.pc
	@install -m 644 $(AT)/install/klarvesimo.pc '$(DESTDIR)$(PREFIX)/lib/pkgconfig'
	@echo 'klarvesimo $(VERSION): installed below $(DESTDIR)$(PREFIX)'

uninstall: absolute
	@for file in $(INSTALLED); do rm -f '$(DESTDIR)$(PREFIX)'/$$file || exit 1; done
	@echo 'klarvesimo: removed below $(DESTDIR)$(PREFIX)'

second: tools-second
	@CARGO_TARGET_DIR=target/second cargo build --release --offline --quiet --manifest-path second/Cargo.toml

ifdef TARGET
bench: tools-host tools-soak $(HOST)/bench
	@tools/group tools/bench-target $(QEMU) $(HOST)/bench
else
bench: tools-bench build
	@tools/group tools/bench target/host/bench $(SECOND) $(LIBRARY)
endif

soak: tools-soak build
	@tools/group tools/soak target/soak $(RUN) $(SECOND) $(SECONDS)

fuzz: tools-fuzz build
	@tools/group tools/fuzz target/fuzz target/staticlib target/host $(SECOND) $(SECONDS)

check-fuzz: tools-fuzz build
	@tools/group tools/check-fuzz target/staticlib target/host $(SECOND)

mutants: tools
	@tools/need python3
	@tools/group tools/mutants --count '$(COUNT)' --seed '$(SEED)' $(CRATE:%=--crate '%')

pictures:
	@mkdir -p target
	@for picture in states layers; do \
	  tools/draw $$picture >target/picture.svg && mv target/picture.svg docs/$$picture.svg || exit 1; \
	done

test: tools-test
	@tools/group bash .ci/run

fmt: tools tools-second
	@for crate in crates/*/; do (cd "$$crate" && rt fmt) || exit 1; done
	@cargo fmt --manifest-path second/Cargo.toml

clean:
	rm -rf target crates/*/out
