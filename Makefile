# make, or make help: what can be done here. Nothing is installed by it: packaging/Makefile does that.
SHELL = bash
# What `rt run` or the gate built; another one is said so: make trials ROAM=/usr/bin/roam.
ROAM = $(CURDIR)/crates/roam/out/roam
# A crate, for `make proof` and `make look`: make proof CRATE=roam_rules.
CRATE =

.PHONY: help quick see run test pages look proof scripts trials around deb

help:
	@echo 'make quick                builds the program without a proof and tries it (ten minutes); with ROAM=PROGRAM it tries that one'
	@echo 'make see                  plays a script of datagrams without a proof (two minutes)'
	@echo 'make run                  proves the program and the crates below it, and plays the same script (two hours, the first time)'
	@echo 'make test                 the gate: proves and tests everything from nothing (100 minutes on four processors, 180 on two)'
	@echo 'make pages                what is generated, written anew; names, keys, refusals and mistakes of the pages looked at'
	@echo 'make look CRATE=NAME      layout, names, types and borrows of a crate; no proof'
	@echo 'make proof CRATE=NAME     a crate and what it needs, proved'
	@echo 'make scripts              tries the converters, the samples and f-ticks.py; no program, no root'
	@echo 'make trials ROAM=PROGRAM  tries a program by its sockets: diagnoses, control, reload, exchanges, and what fails beside'
	@echo '                          it (a log, a path, descriptors, an answer, a socket without room); no root'
	@echo 'make around ROAM=PROGRAM  tries it between servers of others, where these are installed; no root'
	@echo 'make deb ROAM=PROGRAM     the Debian package'
	@echo 'What each is about: docs/CONTRIBUTING.md.'

# A program that is named is tried, else one is built.
quick:
	tools/unproved.py $(if $(filter file,$(origin ROAM)),,$(ROAM))

see:
	cd crates/roam && rt try --data a.conf=../../examples/two-realms.conf --data a.script=../../examples/accounting.script \
		-- sim a.conf a.script

run:
	cd crates/roam && ../../tools/rt.py run -- sim ../../examples/two-realms.conf ../../examples/accounting.script

test:
	.ci/run

pages:
	tools/pages.py
	tools/pages.py --check
	python3 packaging/installed/grafana.py check
	tools/look.py

look:
	tools/quick.py $(CRATE)

proof:
	tools/prove.py $(CRATE)

# Which trials there are, and when each runs, is in packaging/tests/trials.txt.
scripts:
	packaging/tests/trials.py scripts

trials: scripts
	packaging/tests/trials.py trials $(ROAM)

around:
	packaging/tests/trials.py around $(ROAM)

deb:
	$(MAKE) -C packaging deb ROAM=$(ROAM)
