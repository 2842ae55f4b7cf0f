.PHONY: help demo test prove claim check deps service service-race service-engines service-soak histories service-audit service-clients cluster cluster-status cluster-stop link link-emulated dist install install-library install-ctlog fuzz sweep wrong serve serve-witness programs release reproduce bare container

SECONDS ?= 60
PREFIX ?= /usr/local
PORT ?= 8618
BUILT ?= crates
CLUSTER ?= ct-cluster
FOLDER ?= ct-log
WITNESS ?= ct-witness
WITNESS_PORT ?= 8640

PROGRAMS := ctlog
LIBRARY = $(BUILT)/libwagtenib/out/link/libwagtenib
VERSION = $(shell cat VERSION)
# (a shell expands no ~ in quotes)
TO = $(DESTDIR)$(PREFIX:~/%=$(HOME)/%)

help: ## says what each target does
	@sed -n 's/^\([a-z-]*\):.*## /make \1	/p' Makefile | expand -t 24

demo: ## proves ctlog, and shows what it and the library do as soon as each is proved
	@checks/needs.sh demo
	@examples/demo.sh

# It fetches and installs what is missing, as make deps does. ONLY=checks/ runs only the parts that begin with this.
test: ## runs all tests that need no prover: Go, the library, models, sources and pages; without the kit
	@deps/fetch.sh openssl curl
	@PYTHONDONTWRITEBYTECODE=1 python3 tests/parts.py $(ONLY)

# TURN=0 to 8 says of which ninth of the crates it tries the wrong bodies that every ninth run tries.
prove: ## proves every crate, tries wrong bodies, and runs the tests of the crates and of ctlog
	@checks/needs.sh prove
	@PYTHONDONTWRITEBYTECODE=1 python3 checks/prove.py

claim: ## proves what one claim of docs/CHECKING.md needs, CLAIM=verifiers, and shows that a wrong body is refused; without CLAIM it prints the claims
	@$(if $(CLAIM),checks/needs.sh claim)
	@PYTHONDONTWRITEBYTECODE=1 python3 checks/claim.py $(CLAIM)

# On a terminal it asks before it installs anything. SETUP=no says what is missing, and SETUP=yes installs a C compiler even if apt upgrades others for it.
deps: ## fetches Go 1.24 and the modules of the Go part from Debian 13 into a cache, and installs a C compiler where there is none
	@deps/fetch.sh openssl
	@echo "$$(deps/go version) is here. In a shell: eval \"\$$($(CURDIR)/deps/env.sh)\""

check: ## for daily work: proves what changed
	@checks/needs.sh check
	@PYTHONDONTWRITEBYTECODE=1 python3 checks/changed.py

serve: ## serves a log over HTTP at PORT=8618 out of the folder FOLDER=ct-log, by ctserve, which it builds over the proved code of dist/, without the kit
	@cmd/serve.sh "$(FOLDER:~/%=$(HOME)/%)" "$(PORT)"

serve-witness: ## serves a witness at WITNESS_PORT=8640 out of WITNESS=ct-witness, of the log of make serve in FOLDER=ct-log, by ctwitness, which it builds likewise
	@cmd/serve-witness.sh "$(WITNESS:~/%=$(HOME)/%)" "$(WITNESS_PORT)" "$(FOLDER:~/%=$(HOME)/%)"

service: ## builds cmd/out/ctserve, the service in Go (docs/OPERATING.md), ctwitness, ctwatch, ctaudit and ctload
	@cmd/build.sh build

service-engines: ## runs the Go tests with engines on loopback: those of etcd, PostgreSQL and Ceph that are installed
	@tests/engines.sh run cmd/build.sh test -timeout 2h

service-race: ## runs the Go tests, built to tell of data races (go test -race)
	@cmd/build.sh test -race -timeout 2h

service-audit: ## has ctaudit probe look for MINUTES=60 at a log on a folder that is killed each minute
	@deps/fetch.sh
	@PYTHONDONTWRITEBYTECODE=1 tests/soak.py --folder --kills --minutes $(or $(MINUTES),60)

# SEED=NUMBER repeats the choices of another run.
service-soak: ## kills and pauses the nodes, the signer, the witnesses and the engines of a log at random for MINUTES=60, and judges the log from outside
	@deps/fetch.sh
	@PYTHONDONTWRITEBYTECODE=1 tests/soak.py --minutes $(or $(MINUTES),60) $(if $(SEED),--seed $(SEED))

# SIM_FIRST=SEED begins at another seed: the output names those that are done. GOMAXPROCS=1 leaves the other processors alone.
histories: ## simulates HISTORIES=1000000 histories of nodes (internal/sim/README.md), in some two hours of one processor
	@SIM_HISTORIES=$(or $(HISTORIES),1000000) cmd/build.sh test internal/sim -timeout 24h -v -run '^TestHistories$$'

service-clients: ## has certspotter, Google's client library, x/mod's tlog and ctwatch use a log of ctserve over HTTP, those of them that are installed
	@deps/fetch.sh
	@tests/clients.sh

# LOAD=no leaves the loader and the reader out.
cluster: ## runs three nodes of ctserve on engines of their own in CLUSTER=ct-cluster (etcd, Ceph's S3; from PORT=8618 on), with three witnesses, a loader and a reader
	@deps/fetch.sh
	@tests/cluster.sh start "$(CLUSTER:~/%=$(HOME)/%)" "$(PORT)"

cluster-status: ## says what runs of it
	@tests/cluster.sh status "$(CLUSTER:~/%=$(HOME)/%)"

cluster-stop: ## ends it, and judges what it published and answered
	@tests/cluster.sh stop "$(CLUSTER:~/%=$(HOME)/%)"

link: ## builds libwagtenib, the proof checkers for C, and runs programs in C and Python over it
	@checks/needs.sh link
	@examples/link/link.sh

# As root, it installs qemu-user and a C compiler for arm64, and fetches Python and Rust for arm64, all of them from Debian.
link-emulated: ## runs programs in C and the Go, Python and Rust packages over the code for arm64 of dist/, under qemu on an amd64; without the kit
	@SETUP=$(or $(SETUP),yes) PYTHONDONTWRITEBYTECODE=1 python3 tests/library/arm64.py

dist: ## makes the assembly of libwagtenib in dist/ from the proved crates, for amd64 and arm64, with what it is made of and its licences
	@checks/needs.sh dist
	@examples/build.py libwagtenib
	@PYTHONDONTWRITEBYTECODE=1 checks/dist.py --write

# BUILT is the folder in which the crates' builds lie.
install: $(PROGRAMS:%=install-%) install-library ## installs what is built, below PREFIX=/usr/local: ctlog and libwagtenib
	@for program in $(PROGRAMS); do [ ! -e "$(BUILT)/$$program/out/$$program" ] || exit 0; done; \
	[ -e "$(LIBRARY).a" ] || { echo "make install: nothing is built" >&2; exit 1; }

$(PROGRAMS:%=install-%): install-%:
	@if [ -x "$(BUILT)/$*/out/$*" ]; then install -d "$(TO)/bin" && install -m 755 "$(BUILT)/$*/out/$*" "$(TO)/bin" && echo "$(PREFIX)/bin/$*"; \
	else echo "$* isn't built: make demo builds it"; fi

install-library:
	@if [ -f "$(LIBRARY).a" ]; then \
	  install -d "$(TO)/include" "$(TO)/lib/pkgconfig" && \
	  install -m 644 include/wagtenib.h "$(TO)/include" && \
	  install -m 644 "$(LIBRARY).a" "$(TO)/lib" && \
	  install -m 755 "$(LIBRARY).so" "$(TO)/lib/libwagtenib.so.$(VERSION)" && \
	  ln -sf libwagtenib.so.$(VERSION) "$(TO)/lib/libwagtenib.so.0" && \
	  ln -sf libwagtenib.so.0 "$(TO)/lib/libwagtenib.so" && \
	  sed 's|@PREFIX@|$(PREFIX)|; s|@VERSION@|$(VERSION)|' include/wagtenib.pc.in > "$(TO)/lib/pkgconfig/wagtenib.pc" && \
	  echo "$(PREFIX)/lib/libwagtenib.so.$(VERSION), libwagtenib.a, wagtenib.h and wagtenib.pc"; \
	else echo "libwagtenib isn't built: make link builds it"; fi

programs: ## proves and builds ctlog and libwagtenib, and builds the service: what a release is made of
	@checks/needs.sh programs
	@examples/build.py $(PROGRAMS) libwagtenib
	@examples/link/library.sh
	@cmd/build.sh build

# After make programs, which builds what it takes.
release: ## puts what is built into release/out: a tarball, Debian packages, SHA256SUMS and what they are made of
	@PYTHONDONTWRITEBYTECODE=1 release/release.py --built "$(BUILT)"

# As root, with mmdebstrap. If ctlog is not built, the packages have a program in its place that only says so.
bare: ## makes a release's packages, installs them on a bare Debian, and runs the lines of docs/OPERATING.md there as they stand
	@deps/fetch.sh
	@PYTHONDONTWRITEBYTECODE=1 tests/installation/bare.py --built "$(BUILT)"

# As root, with buildah, podman and mmdebstrap.
container: ## builds the image of release/Containerfile out of a release's package, and runs a log in it
	@deps/fetch.sh
	@PYTHONDONTWRITEBYTECODE=1 tests/installation/container.py --built "$(BUILT)"

reproduce: ## builds the programs of the Go part, and those of the crates that are proved here, twice in folders of other names, and compares their bytes
	@release/reproduce.sh

# After `rt run -- --help` in crates/ctlog, which builds it.
fuzz: ## runs ctlog on random and damaged lines for SECONDS=60, and compares it with an independent program
	@PYTHONDONTWRITEBYTECODE=1 python3 tests/fuzz.py --seconds $(SECONDS)

# After `rt run -- --help` in crates/ctlog and `rt test` in crates/house_tests, which build what is swept.
sweep: ## refuses each allocation of ctlog and of the library's calls in turn, and judges what they then do; adds up ctlog's, and gives it a long line
	@PYTHONDONTWRITEBYTECODE=1 python3 tests/memory.py

# After `make check`, over whose work it goes. The first line of an edit says which gates try it.
wrong: ## has the prover refuse the wrong bodies of CRATE=ct_core (crates/*/wrong-bodies), of which the gate tries few each time
	@PYTHONDONTWRITEBYTECODE=1 python3 checks/wrong_bodies.py $(or $(CRATE),ct_core)

