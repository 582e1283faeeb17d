# make run      the main job: the listing of each folder of examples/, then what the command `order` says of the forecourt; or the listing of SITE=folder
# make cli      the command `order`, as rust/target/release/order
# make test     everything: the documents, layout, the trust list, every proof and must-fail edit, why each edit is refused, the Rust side, the calls from
#               C, the examples, the listings, the command `order`, the comparison; then the seconds of each, and the verdict
# make docs     the Markdown files: code blocks against the files that they are taken from, links
# make trust    the list of what a reader must believe, docs/PROOFS.md, compared with the definition files; what public contracts may not do
# make compare  the proved calls compared with the reference
# make bench    the proved engine's times and instructions against the reference's; writes docs/BENCHMARK.md
# make soak     the comparison from a random seed, MINUTES=n minutes long

SHELL := /bin/bash
.SHELLFLAGS := -o pipefail -c
MAKEFLAGS += --no-print-directory

CARGO := cd rust && cargo
LOCKED := --offline --locked
MINUTES := 10
SITE :=
PROOFS := rt ci
LIB := lib
STAGE := tests/gate/stage
export GATE := rust/target/gate
TURNS := $(CURDIR)/target/bin/turns
ARCHIVE := target/staticlib/liborder_ffi.a
ORDER := $(CURDIR)/rust/target/release/order

WARNINGS := -Wall -Wextra -Wpedantic -Werror -Wshadow -Wconversion -Wstrict-prototypes -Wmissing-prototypes -Wcast-qual
CFLAGS := -std=c11 -O1 $(WARNINGS)
CXXFLAGS := -std=c++11 -Wall -Wextra -Wpedantic -Werror

.PHONY: run cli test docs trust compare bench soak lib program layout rust c-test examples listings order-test guarded proofs edits toolchain clean
.NOTPARALLEL:

run: toolchain program $(if $(SITE),,cli)
ifeq ($(SITE),)
	@for folder in examples/*/*/; do echo "$$folder"; (cd "$$folder" && "$(TURNS)") || exit 1; done
	@for case in different same route; do line="tests/order/forecourt-$$case/command"; \
	    cat "$$line"; PATH="$(dir $(ORDER)):$$PATH" $(SHELL) "$$line" || exit 1; done
else
	@cd "$(SITE)" && "$(TURNS)"
endif

# Stage by stage, and none after one that fails. `rt ci` comes before all that is built. The library is then built once, and the stages after that
# need no LIB.
test: toolchain
	@mkdir -p $(GATE) && : > $(GATE)/times && date +%s > $(GATE)/began
	@$(STAGE) 'documents' $(MAKE) docs
	@$(STAGE) 'layout' $(MAKE) layout
	@$(STAGE) 'trust list' $(MAKE) trust
	@tests/gate/proofs $(PROOFS)
	@$(STAGE) 'first errors' $(MAKE) edits
	@$(STAGE) 'library' $(MAKE) lib
	@$(STAGE) 'Rust side' $(MAKE) rust LIB=
	@$(STAGE) 'C calls' $(MAKE) c-test LIB=
	@$(STAGE) 'examples' $(MAKE) examples LIB=
	@$(STAGE) 'listings' $(MAKE) listings
	@$(STAGE) 'order command' $(MAKE) order-test LIB=
	@$(STAGE) 'comparison' $(MAKE) compare LIB=
	@$(STAGE) 'guard pages' $(MAKE) guarded LIB=
	@tests/gate/summary

docs:
	tests/docs/check --self-test
	tests/docs/check

trust:
	tests/trust/check --self-test
	tests/trust/check

compare: $(LIB)
	$(CARGO) run $(LOCKED) --release --quiet --bin compare

# Every lent buffer at an inaccessible page.
guarded: $(LIB)
	$(CARGO) run $(LOCKED) --release --quiet --bin guarded

bench: lib
	$(CARGO) build $(LOCKED) --profile speed --quiet --bin bench --bin count
	rust/target/speed/bench docs/BENCHMARK.md

soak: lib
	$(CARGO) run $(LOCKED) --release --quiet --bin soak -- --minutes $(MINUTES)

cli: $(LIB)
	$(CARGO) build $(LOCKED) --release --quiet --package order-cli
	@echo 'built $(ORDER:$(CURDIR)/%=%)'

# The proved calls, as target/staticlib/liborder_ffi.a, and the listing program, as target/bin/turns; what the prover says is shown where it refuses. Each
# function of the library is told to begin at a multiple of 64 bytes, wherever it is linked (docs/DECISIONS.md, C17).
lib:
	@mkdir -p $(dir $(ARCHIVE))
	@[ -f $(ARCHIVE) ] || echo 'proving and building the library: some minutes the first time' >&2
	@(cd crates/order_ffi && rt lib) > target/lib.log 2>&1 || { cat target/lib.log; exit 1; }
	@[ -f $(ARCHIVE) ] && cmp -s crates/order_ffi/out/liborder_ffi.a target/lib.made || \
	    { objcopy --set-section-alignment '.text.*=64' crates/order_ffi/out/liborder_ffi.a $(ARCHIVE) && cp crates/order_ffi/out/liborder_ffi.a target/lib.made; }

program:
	@mkdir -p $(dir $(TURNS))
	@[ -x "$(TURNS)" ] || echo 'proving and building the listing program: some minutes the first time' >&2
	@(cd crates/turns && rt run) > target/turns.log 2>&1 || { cat target/turns.log; exit 1; }
	@cmp -s crates/turns/out/turns "$(TURNS)" || cp crates/turns/out/turns "$(TURNS)"

# The layout of .rt and .antt files is looked at by `rt ci`.
layout:
	$(CARGO) fmt --all --check

rust: $(LIB)
	$(CARGO) clippy $(LOCKED) --quiet --workspace --all-targets -- -D warnings
	$(CARGO) test $(LOCKED) --quiet --workspace
	$(CARGO) doc $(LOCKED) --quiet --workspace --no-deps --config 'build.rustdocflags = ["-D", "warnings"]'

# The header is read as C++ too, where there is a compiler for it.
c-test: $(LIB)
	mkdir -p target/c-test
	$(CC) $(CFLAGS) -Iinclude tests/c/*.c $(ARCHIVE) -o target/c-test/calls
	target/c-test/calls tests/turns/document/site.tab
	@if command -v $(CXX) > /dev/null; then \
	    $(CXX) $(CXXFLAGS) -fsyntax-only -Iinclude tests/c/header.cpp && echo 'order.h as C++: accepted'; \
	else \
	    echo 'order.h as C++: no compiler, not tried'; \
	fi

# The programs that README.md and docs/FORMAT.md show.
examples: cli
	tests/examples/run

listings: program
	tests/turns/run

order-test: cli
	tests/order/run

proofs:
	$(PROOFS)

# Why each must-fail edit was refused, by what the gate's proofs said last.
edits:
	tests/gate/edits --self-test
	tests/gate/edits

# Warns of other versions.
toolchain:
	@tests/gate/toolchain

clean:
	rm -rf target rust/target
