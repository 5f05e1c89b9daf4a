# smi: the program of the control hierarchy. `make run` and `make test` are all that a fresh clone needs.

SOURCES := crates.txt $(shell find crates -path '*/out' -prune -o -type f \( -name '*.rt' -o -name '*.antt' \) -print)

# So many crates are proved side by side: one for each processor, and 4 GB for each.
LANES := $(shell awk -v most=$$(nproc) '/^MemAvailable/ { fit = int($$2 / 4000000); print fit < 1 ? 1 : fit < most ? fit : most }' /proc/meminfo)

# The tests run under Debian's python3, because its packages have pytest. As many run side by side as there are processors.
# ONLY chooses some by their names, as `-k` of pytest does: make nodes ONLY='store or killed'.
PYTHON := /usr/bin/python3
tests = $(PYTHON) -m pytest -n auto $(if $(ONLY),-k '$(ONLY)') $(1:%=tests/%_test.py)

.PHONY: smi run try test gate record check needs cases nodes marks full consoles soak chaos crowd forest shift screen browser bridge demo tools documents pictures edits edits-test tools-test bench
.PHONY: install deb package

# The program, proved and built, at bin/smi.
smi: bin/smi

bin/smi: $(SOURCES)
	@python3 tools/libraries.py --lanes $(LANES) smi
	@python3 tools/libraries.py --lanes $(LANES) --program smi
	mkdir -p bin
	cp crates/smi/out/smi bin/smi

# Where the program and what belongs to it are put: make install PREFIX=/usr/local DESTDIR=staged.
PREFIX ?= /usr/local
DESTDIR ?=
BIN := $(PREFIX)/bin
SHARE := $(PREFIX)/share/smi
DOC := $(PREFIX)/share/doc/lunskaf
ZSH := $(PREFIX)/share/zsh/site-functions
UNITS := smi-node@.service smi-screen.service smi-watch@.service smi-watch@.timer
# What a crew and whoever runs the machines may want beside the program.
TOOLS := console demo devices draw firewall gateway health hierarchy history lines lunskaf modbus_bridge mqtt_bridge play record rows show status tango_bridge tree tree_check tree_diff

# The program, its page, completion, the unit and its user, the tools, examples and documents.
install: bin/smi
	install -D -m 755 bin/smi $(DESTDIR)$(BIN)/smi
	sed 's#@SHARE@#$(SHARE)#; s#@BIN@#$(BIN)#' package/smi-demo > $(DESTDIR)$(BIN)/smi-demo
	chmod 755 $(DESTDIR)$(BIN)/smi-demo
	install -D -m 644 package/smi.bash $(DESTDIR)$(PREFIX)/share/bash-completion/completions/smi
	install -D -m 644 package/_smi $(DESTDIR)$(ZSH)/_smi
	install -D -m 644 package/smi.sysusers $(DESTDIR)$(PREFIX)/lib/sysusers.d/smi.conf
	install -d $(DESTDIR)$(PREFIX)/share/man/man1 $(DESTDIR)$(PREFIX)/lib/systemd/system
	sed 's#@SHARE@#$(SHARE)#g; s#@DOC@#$(DOC)#g' package/smi.1 > $(DESTDIR)$(PREFIX)/share/man/man1/smi.1
	for UNIT in $(UNITS); do sed 's#/usr/local/bin/smi#$(BIN)/smi#; s#/usr/local/share/smi#$(SHARE)#' examples/$$UNIT \
		> $(DESTDIR)$(PREFIX)/lib/systemd/system/$$UNIT; done
	install -d $(DESTDIR)$(SHARE)/tools $(DESTDIR)$(SHARE)/examples $(DESTDIR)$(DOC)/docs/pictures
	install -m 644 $(TOOLS:%=tools/%.py) $(DESTDIR)$(SHARE)/tools
	install -m 644 $(filter-out $(UNITS:%=examples/%),$(wildcard examples/*)) $(DESTDIR)$(SHARE)/examples
	install -m 644 README.md SECURITY.md CHANGELOG.md LICENSE $(DESTDIR)$(DOC)
	install -m 644 docs/*.md docs/*.png $(DESTDIR)$(DOC)/docs
	install -m 644 docs/pictures/* $(DESTDIR)$(DOC)/docs/pictures

# A package for Debian of the same, in package/out/.
deb: bin/smi
	@python3 tools/deb.py package/out

# What is installed and packed, the page, the unit and completion; the last line is 'N passed, M failed'.
package: needs bin/smi
	@$(call tests,package)

# The main job on a real input: each datagram and its answer, in hexadecimal beside what they say. By the proved program
# where it is built of these sources, and else by an unproved one, in some minutes.
run:
	@if $(MAKE) -q bin/smi; then python3 tools/show.py examples/one-domain.datagrams bin/smi answer; \
	else $(MAKE) --no-print-directory try; fi

# The same answers from the program as it is written: NOTHING of it is proved before it runs.
try:
	cd crates/smi && python3 ../../tools/show.py ../../examples/one-domain.datagrams rt try -- answer
	@echo 'Nothing of this was proved before it ran. make smi proves the program and builds bin/smi, in about an hour.'

# What each change has to pass: every proof and test from nothing, the tests of tests/, and mutants of crates over changed
# ones. Mutants of changed crates have to be recorded before (make record). The last line is 'N passed, M failed'.
test: needs
	@python3 tools/gate.py

# The same with the mutants of every crate, which it then writes into edits.ok.
gate: needs
	@python3 tools/gate.py --all

# What the tests need of Debian: says what is missing, and fails.
needs:
	@$(PYTHON) tests/needs.py

# Tries the mutants that edits.ok has no valid line for, or those of some crates, and writes the lines; or takes the lines
# that a gate has printed: make record, make record CRATE='smi_grant smi_tree', make record LOG=gate.log
record:
	@python3 tools/refusals.py $(if $(LOG),--adopt '$(LOG)',$(CRATE))

# One crate, over what earlier checks kept: make check CRATE=smi_grant
check:
	@python3 tools/libraries.py --check $(CRATE) --lanes $(LANES)

# The command lines alone, or some: make cases ONLY=take. The last line is 'N passed, M failed'.
cases: needs bin/smi
	@$(call tests,command_lines growths growths_node interrupts limits odd_inputs paths schedules settling terminals)

# Nodes as processes, three of them over UDP among them, or some tests: make nodes ONLY=store.
nodes: needs bin/smi
	@$(call tests,nodes node_load pages)

# What tree a store is of, or some tests: make marks ONLY=removed.
marks: needs bin/smi
	@$(call tests,marks)

# Nodes over a full tree, at addresses of their own.
full: needs bin/smi
	@$(call tests,full)

# Many consoles at one node, their clients and what a crew asks of it, or some tests: make consoles ONLY=rude.
consoles: needs bin/smi
	@$(call tests,consoles actions clients crew)

# Three nodes behind a proxy that loses, repeats, delays and reorders, with kills: make soak WORDS='--seconds 3600 --seed 7'.
soak: bin/smi
	@$(PYTHON) tests/soak.py bin/smi $(WORDS)

# Thirty nodes at the size of an experiment, over a worse network, with kills, stops, partitions and garbage.
chaos: bin/smi
	@$(PYTHON) tests/chaos.py bin/smi $(WORDS)

# A crowd of nodes, 16 or as many as are asked for: what they cost and how soon they answer: make crowd WORDS='--stations 128'.
crowd: bin/smi
	@$(PYTHON) tests/crowd.py bin/smi $(WORDS)

# A tree of trees on this machine, 16 or as many as are asked for, with a gateway for each: make forest WORDS='--trees 2'.
forest: bin/smi
	@$(PYTHON) tests/forest.py bin/smi $(WORDS)

# The shift of examples/shift.schedule over the whole detector: what must hold at each place, or at some of them.
shift: needs bin/smi
	@$(call tests,shift)

# The screen over HTTP, the orders that it gives, and tools/status.py, or some tests: make screen ONLY=hostile.
screen: needs bin/smi
	@$(call tests,screen orders standing)

# The page of the screen in headless Chromium, while the crew's shift is played: skipped if there is none.
browser: needs bin/smi
	@$(call tests,browser warnings display page_parts)

# The bridges to TANGO, MQTT and Modbus between a node and real servers, each skipped if it is not there, device
# programs, and gateways between two trees.
bridge: needs bin/smi
	@$(call tests,bridge mqtt modbus devices gateway)

# The example detector on this machine, with a screen and the crew's shift: it prints the address to open, and Ctrl-C
# ends all.
demo: bin/smi
	@python3 tools/demo.py bin/smi $(WORDS)

# The tools beside the program, the pictures that they draw and the tree files that they make.
tools: needs bin/smi
	@$(call tests,pictures tree)

# The documents: what they name, the commands in them, and their words.
documents: needs bin/smi
	@$(call tests,documents numbers played words)

# The pictures of docs/pictures/, made anew from the examples.
pictures: bin/smi
	@$(PYTHON) tests/pictures.py bin/smi --write

# The mutants that the prover must refuse, of all crates or of some: make edits CRATE='smi_grant smi_tree' ONLY=take JOBS=2.
# The last line is 'N refused, M not'.
edits:
	@python3 tools/edits.py --jobs $(or $(JOBS),1) $(if $(ONLY),--only '$(ONLY)') $(CRATE)

# Whether that tells a mutant that is refused from one that is not.
edits-test:
	@$(PYTHON) tests/edits_test.py

# The gate itself and the judges of the tests, or some tests: make tools-test ONLY=Soak.
tools-test: needs
	@$(call tests,gate tools verdicts)

bench: bin/smi bin/smi_bench
	python3 tests/bench.py bin/smi bin/smi_bench
	python3 tests/bench_nodes.py bin/smi

# The program of the measures, which no other target needs.
bin/smi_bench: bin/smi $(shell find bench -type f)
	@python3 bench/build.py
