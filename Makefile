# make run                     builds the engine and the tool, and replays the accident
# make test                    the gate
# make install PREFIX=FOLDER   puts tool, header, library, man page and completion there (below DESTDIR, if that is set)
# make uninstall PREFIX=FOLDER takes them away again
#
# `rt` is the Rattle kit's command. The engine is proved where its crates have changed since the library was written, and not
# otherwise. RELAY_ENGINE_DIR names a folder that has a libengine.a already; then nothing is proved at all.
.PHONY: run test tool library install uninstall
.DELETE_ON_ERROR:

PREFIX ?= /usr/local
root := $(DESTDIR)$(abspath $(PREFIX))
version := $(shell sed -n 's/^version = "\(.*\)"/\1/p' host/Cargo.toml)
program := $(or $(CARGO_TARGET_DIR),host/target)/release/relay

ifdef RELAY_ENGINE_DIR
override RELAY_ENGINE_DIR := $(abspath $(RELAY_ENGINE_DIR))
export RELAY_ENGINE_DIR
library := $(RELAY_ENGINE_DIR)/libengine.a
else
library := target/staticlib/libengine.a
$(library): crates.txt $(shell find crates -type f -not -path '*/must-fail/*' -not -path 'crates/*/out/*')
	@echo "make: proving the engine and compiling it: some minutes from nothing, and not again while the crates stay as they are."
	@echo "make: lines with 'note:' are the prover's remarks, mostly on what a proof costs, and no faults: a fault ends this with an error."
	sh tools/build-engine.sh library
	@touch $@
	@echo "make: proved and compiled: $@"
endif

run: tool
	$(program) examples/handover.relay

test:
	bash .ci/run

library: $(library)

tool: $(library)
	cargo build --offline --locked --release --quiet --manifest-path host/Cargo.toml

# On a machine that can't link the library (x86-64 code) the tool talks to the engine as a process, which is installed with it.
install: tool
	install -d "$(root)/bin" "$(root)/include" "$(root)/lib/pkgconfig" "$(root)/share/man/man1" "$(root)/share/bash-completion/completions"
	install -m 755 $(program) "$(root)/bin/relay"
	install -m 644 host/relay.h "$(root)/include/relay.h"
	install -m 644 $(library) "$(root)/lib/librelay.a"
	sed 's|@PREFIX@|$(abspath $(PREFIX))|; s|@VERSION@|$(version)|' host/install/relay.pc.in >"$(root)/lib/pkgconfig/relay.pc"
	sh host/install/man.sh $(version) >"$(root)/share/man/man1/relay.1"
	install -m 644 host/install/relay.bash "$(root)/share/bash-completion/completions/relay"
	[ "$$(uname -m)" = x86_64 ] || { install -d "$(root)/libexec/relay" && \
	    sh host/link-c.sh $(library) "$(root)/libexec/relay/engine-process" host/bridge.c; }

uninstall:
	rm -f "$(root)/bin/relay" "$(root)/include/relay.h" "$(root)/lib/librelay.a" "$(root)/lib/pkgconfig/relay.pc"
	rm -f "$(root)/share/man/man1/relay.1" "$(root)/share/bash-completion/completions/relay"
	rm -rf "$(root)/libexec/relay"
