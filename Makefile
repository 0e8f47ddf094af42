# The commands of this repository; `make help` lists them. `rt` is the command of the Rattle kit.

.DEFAULT_GOAL := help
.PHONY: help run build serve serve-unproved host host-unproved queue stop install uninstall deb dist pictures test try test-python bench check examples clean

EXAMPLE ?= first_job

help: ## lists the targets
	@sed -n 's/^\([a-z-]*\):[^#]*## */    make \1|/p' Makefile | awk -F'|' '{ printf "%-24s %s\n", $$1, $$2 }'

run: ## runs an example within a minute or two, unproved unless it is built: make run EXAMPLE=isolated_waiter
	@python3 examples/show.py $(EXAMPLE)

build: ## proves arena-compile, arena-script, arena-server and arena-host, and builds them into out/
	@python3 checks/build/run.py

SOCKET ?= /tmp/arena.sock
PROGRAM ?= out/arena-server
CONFIG ?= examples/server/config.json
CONNECTIONS ?= 64
DUMP ?=

serve: build ## serves 64 connections at /tmp/arena.sock (CONFIG=FILE, CONNECTIONS=N, DUMP=FOLDER); Ctrl-C stops it in order
	@$(if $(DUMP),mkdir -p $(DUMP))
	@trap 'rm -f $(SOCKET)' INT; setsid $(PROGRAM) --config $(CONFIG) --socket $(SOCKET) --connections $(CONNECTIONS) \
	    $(if $(DUMP),--dump $(DUMP)) & server=$$!; while kill -0 $$server 2>/dev/null; do wait $$server; done; wait $$server

serve-unproved: ## the same within a minute or two, by a server that is built without proofs
	@checks/build/unproved.py arena-server
	@$(MAKE) --no-print-directory -o build serve PROGRAM=out/unproved/arena-server

RUN ?= /tmp/arena
HOST ?= out/arena-host

host: build ## hosts the same tenants for any number of connections, in the folder RUN (/tmp/arena); Ctrl-C stops it in order
	@mkdir -p $(RUN)
	@PYTHONPATH=python MALLOC_MMAP_THRESHOLD_=16384 python3 -m arena host --program $(HOST) $(RUN) --config $(CONFIG)

host-unproved: ## the same within a few minutes, by a host that is built without proofs
	@checks/build/unproved.py arena-host
	@$(MAKE) --no-print-directory -o build host HOST=out/unproved/arena-host

QUEUE ?= /tmp/arena-queue
LISTEN ?= 127.0.0.1:9780

queue: ## a durable queue, a host and the page over HTTP, in the folder QUEUE (/tmp/arena-queue), at LISTEN; without proofs if no host is built; Ctrl-C stops all
	@examples/queue/start.py $(QUEUE) --config $(CONFIG) --listen $(LISTEN) $(if $(wildcard $(HOST)),--host $(HOST))

stop: ## stops the server of `make serve` in order, and waits until it has ended, ten minutes at most
	@examples/server/stop.py $(SOCKET)

DESTDIR ?=
PREFIX ?= /usr/local
SYSCONFDIR ?= /etc
PYTHON ?= /usr/bin/env python3
PROGRAMS ?= out
PLACES = --destdir "$(DESTDIR)" --prefix "$(PREFIX)" --etc "$(SYSCONFDIR)"

install: ## installs what stands in out/, the Python package, pages and units, below DESTDIR and PREFIX (/usr/local)
	@packaging/install.py install $(PLACES) --python "$(PYTHON)" --programs "$(PROGRAMS)"

uninstall: ## takes away what `make install` made
	@packaging/install.py uninstall $(PLACES)

deb: ## builds a Debian package of what stands in out/ (docs/OPERATIONS.md, Installing)
	@packaging/deb.py --programs "$(PROGRAMS)"

dist: ## packs the proved programs with the gate's last line and their checksums
	@packaging/dist.py --programs "$(PROGRAMS)"

test: ## passes the gate: each proof, wrong body, test and program, and all checks (checks/README.md); an hour or two
	@mkdir -p out
	@checks/run.py

try: ## passes what needs no proof, by programs that are built without: pages, examples, compiler, installing, Python, queue; some six minutes
	@checks/run.py --try

test-python: ## runs the tests of the Python package that need no built program, within seconds
	@cd python && python3 -m unittest

bench: ## measures everything beside its twin, and writes the table of benches/README.md
	@benches/bench.py

pictures: ## draws the pictures of the README, of docs/ARCHITECTURE.md and of docs/TRACE.md again
	docs/pictures/make.py
	docs/pictures/house.py

check: ## proves each crate again where it has changed
	rt all check

examples: ## compares what each example prints with what is expected, unproved
	checks/examples/run.sh

clean: ## removes what was built and proved
	rm -rf out crates/*/out
