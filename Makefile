# The kit that the gate takes, as `rt version` names it.
KIT := rattle-kit-13f logic dac8208d650f15bf

SHELL := /bin/bash
.SHELLFLAGS := -euo pipefail -c
.ONESHELL:
.SILENT:
.DELETE_ON_ERROR:
.NOTPARALLEL:
.PHONY: test list plot text road vcp install bench given textable tools fmt clean

# The road file that `make list` lists, `make plot` draws and `make text` prints.
ROAD ?= roads/three-crests.vcp

# Where `make install` puts the command: $(PREFIX)/bin.
PREFIX ?= /usr/local

# The proved crates that Rust links, and what they are proved and built from.
LIBRARIES := van curve_exports sight_exports engine_exports marks_exports passing_exports file_exports road_exports preview_exports listing_exports conversion_exports mirror_exports
SOURCES := crates.txt $(shell find crates -name out -prune -o -type f -print)

# Proves every crate, tries every must-fail edit and runs the lister; then links the proved functions into the Rust tests and runs
# them. An edit that cannot be tried fails it too. Where all went well the last line repeats that of `rt ci`.
test: tools
	exec 2>&1
	log=$$(mktemp)
	trap 'rm -f "$$log"' EXIT
	rt ci | tee "$$log"
	grep -q '^rt: ok' "$$log"
	if grep -E '^rt: ok.*, [1-9][0-9]* bad' "$$log"; then exit 1; fi
	tools/build lister $(LIBRARIES)
	cargo test --workspace --release --offline --quiet
	tail -n 1 "$$log"

# The command, built from the proved functions. `make -s vcp` and then target/rust/release/vcp --help.
vcp: tools $(LIBRARIES:%=target/staticlib/lib%.a)
	cargo build --release --offline --quiet --package command

run = target/rust/release/vcp

# Puts the command into $(PREFIX)/bin; its --help is its manual.
install: vcp
	install -D -m 755 $(run) "$(DESTDIR)$(PREFIX)/bin/vcp"

# Lists a road file.
list: given vcp
	$(run) list -- "$(ROAD)"

# Draws a road's profile and zones into the file PLOT, or under the road's name into target/plot. A refused file leaves the
# picture as it was.
plot: given vcp
	plot="$(PLOT)"
	: "$${plot:=target/plot/$$(basename "$(ROAD)" .vcp).svg}"
	mkdir -p "$$(dirname "$$plot")"
	$(run) plot -o "$$plot" -- "$(ROAD)"
	echo "$$plot"

# Prints the text of a road file.
text: given vcp
	$(run) text -- "$(ROAD)"

given:
	$(call need,[ -f "$(ROAD)" ],$(ROAD) is not a file: give one with ROAD=file)

# Turns a text into a road file: TEXT with the ending .vcp, or the ROAD of the command line. The default of ROAD is no place
# to write to.
road: ROAD :=
road: textable vcp
	text="$(TEXT)"
	road="$(ROAD)"
	$(run) road -o "$${road:=$${text%.txt}.vcp}" -- "$$text"
	echo "$$road"

textable:
	$(call need,[ -f "$(TEXT)" ],$(or $(TEXT),TEXT) is not a file: make road TEXT=file [ROAD=out])

# Times the proved functions beside the same calculations in safe Rust and beside the literal rule, long roads beside short ones,
# the lane coming back beside a mirror, the quick engine of sight beside the slow one, and the listing of a thousand roads beside
# their marking; measures the stack of each operation; and prints the tables. It takes three minutes or so.
bench: vcp
	cargo run --profile bench-run --offline --quiet --bin bench

# Proves and builds a library for Rust, where what it is made from has changed.
target/staticlib/lib%.a: $(SOURCES) | tools
	$(call quietly,tools/build $*)

# $(call quietly,COMMAND): runs the command, which makes the target, and shows what it says only where it fails.
define quietly
log=$$(mktemp)
trap 'rm -f "$$log"' EXIT
echo "proving and building $(@F): some minutes, once" >&2
$1 >"$$log" 2>&1 || { tail -n 20 "$$log" >&2; exit 1; }
touch $@
endef

# $(call need,TEST,MESSAGE): where the shell's test fails, make stops with the message.
need = $(if $(shell ($1) >/dev/null 2>&1 && echo holds),,$(error $2))

kit = $(call need,rt version | grep -qxF -e "$(KIT)",rt is not on the path or of another kit: install $(KIT))

tools:
	$(kit)
	$(call need,command -v cargo,cargo is not on the path: install Rust)

fmt:
	for crate in crates/*/; do (cd "$$crate" && rt fmt); done
	cargo fmt --all

clean:
	rm -rf target
