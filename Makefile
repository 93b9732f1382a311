# The program, and the folder of the libraries. Where they aren't given, tools/built takes what was built here, or else the
# release in dist/. A relative path begins where the user stands, whom `make -C` doesn't move.
PROGRAM :=
LIBRARY :=
export STANDS := $(PWD)

# Where `make install` puts what was built, and `make uninstall` removes it.
PREFIX ?= /usr/local

# Where `make deb` leaves the packages.
PACKAGES := out

# What `make run` runs: a folder of yours (DATA) or one of examples/, the command line (tools/run says which without one), and with
# COMPILE=yes a program that the kit compiles now.
EXAMPLE := trips
DATA := examples/$(EXAMPLE)
WORDS :=
COMPILE :=

# The parts that `make checks` runs, all without a name.
PARTS :=

.PHONY: help run archive build install uninstall deb release library command engines postgres test checks edits bench memory limits clean

## make checks    the tests, without the kit: of what is built, or else of the release in dist/ (five minutes; it says what it skips)
## make run       runs a query over examples/trips, or over a folder of yours: make run DATA=FOLDER (2 seconds; with COMPILE=yes
##                a minute, by a program that the kit compiles now, of which nothing is proved)
## make archive   fetches what Debian's archive says of itself by apt (55 MB), makes tables of 2,400,000 rows of it, and answers one
##                question, with bounds, rows and a picture (about two minutes; Debian only)
## make install   installs program and libraries, those that were built or else the release's, below PREFIX, /usr/local (2 seconds);
##                with PG_CONFIG=pg_config the extension too, for that PostgreSQL 15; make uninstall removes it all
## make deb       makes Debian packages of all that make install installs, in out/ (3 seconds)
## make engines   tests safebound-sql on SQLite and on a PostgreSQL of its own, over the library (docs/ENGINES.md; minutes)
## make postgres  builds the extension for PostgreSQL 15 over the library, and tests it on a server of its own (docs/POSTGRES.md; minutes)
## make clean     removes what was built
##
## These need the Rattle kit (CONTRIBUTING.md). docs/PROOFS.md has the times of the build and of the gate.
##
## make build     proves and builds the program; it says how long it still takes
## make library   proves and builds the library for C, Python and Rust (docs/EMBEDDING.md)
## make command   proves and builds the whole program as a library over files in memory
## make test      the gate: every proof, the gate's own edits, the libraries, and make checks; it says how far it is
## make release   builds the last commit twice, from clean clones, and puts the result into dist/ (minutes, where the proofs are kept)
## make edits     every wrong body that a contract must refuse (two hours); make edits CRATES="plans set_bounds" some of them
## make bench     measures beside plain Rust and databases (minutes, once built)
## make memory    runs with each request for memory refused in turn (minutes)
## make limits    runs at the limits of tables, texts and the budget (minutes)

# The targets with their times: the lines of this file that begin with two #.
help:
	@sed -n 's/^## \{0,1\}//p' Makefile

# Stands before a recipe that needs the kit. Without it make ends here, with one line.
kit = $(if $(shell command -v rt),,$(error $(shell tools/needs-kit "make $@")))

# The proved program where `make build` left it, else the release's.
run:
	@tools/run $(if $(COMPILE),--compile) "$(DATA)" $(WORDS)

# One question over real rows: the packages of Debian's archive.
archive:
	@bench/archive ask

# The program, proved.
build:
	@$(kit)tools/build

install:
	@PROGRAM="$(PROGRAM)" LIBRARY="$(LIBRARY)" tools/install "$(PREFIX)" "$(DESTDIR)"

uninstall:
	@tools/install --remove "$(PREFIX)" "$(DESTDIR)"

deb:
	@PROGRAM="$(PROGRAM)" LIBRARY="$(LIBRARY)" tools/deb "$(PACKAGES)"

# The release in dist/, from the last commit.
release:
	@$(kit)tools/release

# The library for C, Python and Rust, proved: library/out has it, docs/EMBEDDING.md says how it is used.
library:
	@$(kit)tools/build safebound_c
	@library/build

# The whole program over files in memory, for C, Python and Rust.
command:
	@$(kit)tools/build safebound_command
	@library/build --command

# Everything: each proof that this machine hasn't kept, the gate's own edits, the tests, the stored runs, random ones.
test:
	@$(kit).ci/run

# A make that a test calls must not share the jobs of this one.
unexport MAKEFLAGS

# The tests of what is built, or else of the release: tools/checks lists the parts. PARTS="cases engines" are some of them.
checks:
	@tools/checks $(PARTS)
check-%:
	@tools/checks $*

# The extension for PostgreSQL, tested on a server of its own; nothing is installed into the machine's.
postgres:
	engines/setup --extension
	postgres/test --all

# Every wrong body that a contract must refuse, those in more-edits/ too; or those of some crates: make edits CRATES="plans set_bounds".
edits:
	@$(kit)tools/edits $(CRATES)

bench: build library
	@$(kit)cd crates/bench_degrees && rt run -- time > build.log 2>&1 || { cat build.log; exit 1; }
	@cd crates/bench_link_index && rt run -- time > build.log 2>&1 || { cat build.log; exit 1; }
	@cd crates/bench_tables && rt run -- time > build.log 2>&1 || { cat build.log; exit 1; }
	@cd crates/bench_orders && rt run -- time > build.log 2>&1 || { cat build.log; exit 1; }
	@cd crates/bench_fold && rt run -- time > build.log 2>&1 || { cat build.log; exit 1; }
	@cd crates/bench_joins && rt run -- time > build.log 2>&1 || { cat build.log; exit 1; }
	@cd crates/bench_stats && rt run -- time > build.log 2>&1 || { cat build.log; exit 1; }
	@cd crates/bench_stats_file && rt run -- time > build.log 2>&1 || { cat build.log; exit 1; }
	@cd crates/bench_reduce && rt run -- time > build.log 2>&1 || { cat build.log; exit 1; }
	bench/one-table
	bench/degrees
	bench/link-index
	bench/tables
	bench/orders
	bench/bushy-plan
	bench/queries
	bench/fold
	bench/joins
	bench/stats
	bench/stats-file
	bench/reduce
	bench/demo
	bench/shop
	bench/keys
	bench/library

# Runs over devices in memory, with each request for memory refused in turn; and how many bytes a reservation asks for. It takes minutes.
memory:
	@$(kit)cd crates/memory_runs && rt run > build.log 2>&1 || { cat build.log; exit 1; }
	tools/memory
	@cd crates/memory_counts && rt run > build.log 2>&1 || { cat build.log; exit 1; }
	tools/memory-bytes

# Runs at the limits of tables, texts and the budget, with their times and their peaks of memory. It takes minutes.
limits: build
	bench/limits

# safebound-sql on SQLite and on a PostgreSQL of its own. What isn't installed is installed first (Debian; root or sudo).
engines:
	engines/setup --server
	engines/test --all

clean:
	rm -rf crates/*/out library/out rust/target out
