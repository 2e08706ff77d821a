# `make help` lists the targets, with what each takes. `make format` comes before a commit.

PROVED = crates/turnaudit/out/turnaudit
# The program beside it that makes captures ready.
PREPARES = crates/turnprep/out/turnprep
# The program that tells what a verdict means, and what no order explains.
EXPLAINS = crates/turnexplain/out/turnexplain
# What judges a certificate by the machine that forgets, too.
MACHINE = crates/bench_machine/out/bench_machine
# The program that is installed, packed and tested. Another one is taken as it is: `make install PROGRAM=/where/it/is`.
PROGRAM = $(PROVED)
# The programs that are installed and packed with it, by default those that `make turnprep turnexplain` has built. `make install BESIDE=`
# installs turnaudit alone, and BESIDE='/where/it/is/turnprep' that file. A program keeps the name of its file, by which its completions
# and its man page are chosen.
BESIDE = $(wildcard $(PREPARES) $(EXPLAINS))
SOURCES = crates.txt $(shell find crates \( -path '*/src/*.rt' -o -path '*/specs/*.antt' -o -path '*/proofs/*.antt' \) -not -path '*/out/*')
SECONDS = 60
DEMO = examples/coturn-channels-two-files
# Where `make install` puts the program (PREFIX=$$HOME/.local needs no root), and what stands before that.
PREFIX = /usr/local
DESTDIR =
# Where `make deb` puts the package.
OUT = out

.PHONY: deb demo edits format fuzz help install test turnaudit turnexplain turnprep uninstall

# What follows two number signs is a line of the help.
## demo         audit a stored call by a build without proofs: 2 minutes, 1.6 GB
## turnaudit    prove and build the auditor: 95 core minutes, 6 GB
## turnprep     prove and build what prepares captures; most crates are turnaudit's
## turnexplain  prove and build what explains verdicts; most crates are turnaudit's
## install      install what is built, below PREFIX=/usr/local: seconds, no proofs
## uninstall    remove what `make install` put below PREFIX: seconds
## deb          pack what is built, into out/: seconds; dpkg-deb and binutils
## test         every proof, all tests and the examples: 2 hours, 12 GB
## edits        try all must-fail edits: hours; CRATES="audit_rules" of these alone
## fuzz         damaged input, SECONDS=60 a program; proves and builds it first
## format       lay out the code of every crate, before a commit: seconds
## PROGRAM=FILE, BESIDE='FILE..': other programs for install and deb; BESIDE= none
help:
	@sed -n 's/^## //p' $(firstword $(MAKEFILE_LIST))

# Prints the verdict on the captures of a call over coturn, by a build that isn't proved.
demo:
	@tools/unproved.py audit --policy $(DEMO)/policy --creds $(DEMO)/creds $(DEMO)/client.pcapng $(DEMO)/peer.pcapng

# Proves and builds the program, $(PROVED).
turnaudit: $(PROVED)

$(PROVED): $(SOURCES)
	@tools/build.py
	@touch $@

# Proves and builds the programs beside it: what makes captures ready, and what tells what a verdict means.
turnprep turnexplain:
	@tools/build.py $@

# Puts the programs that are built, their man pages and completions, and the documents below PREFIX. It builds none: it names those that
# aren't built.
install:
	@tools/install.py --program '$(PROGRAM)' --beside $(BESIDE) --prefix '$(PREFIX)' --destdir '$(DESTDIR)'

# Removes what `make install` put below PREFIX, and folders that it made if they are empty.
uninstall:
	@tools/uninstall.py --prefix '$(PREFIX)' --destdir '$(DESTDIR)'

# Makes a Debian package of the programs that are built, out/turnaudit_VERSION_ARCHITECTURE.deb.
deb:
	@tools/package.py --program '$(PROGRAM)' --beside $(BESIDE) --out '$(OUT)'

# Lays out the code of every crate as the gate asks for it.
format:
	@for crate in crates/*/; do (cd $$crate && rt fmt) || exit 1; done

# Tries every must-fail edit beside the gate, and writes the ledger of them, tests/edits/tried. `make edits CRATES="audit_rules"`: those of
# these crates.
edits:
	tools/edits.py $(or $(CRATES),--all)

# Measures the documents. Then proves every crate from nothing, tries the must-fail edits of the gate with those that are drawn of the
# others, and runs the tests and the program. Then, with the program that this built: judges the captures in examples, asks that the
# number of workers changes no answer, tries the examples of docs/REFUSALS.md, compares with the plain checker, gives it hostile input and
# captures that grow, refuses it memory, installs it, compares a made fleet's nights, audits a fleet by two engines, has it find
# certificates for captures of a simulated server, and compares the machine that forgets with it. At last it runs turnprep on its cases
# and on captures of strangers, asks turnexplain for the faults that are known of captures, for what its golden files have, as text and as
# JSON, and for its pages, and runs the conformance kit on a right server and on broken ones.
test:
	python3 tests/documents.py
	tools/reading_copy.py --check
	tools/edits.py --with rt ci
	tests/captures.sh $(PROGRAM)
	tests/workers.sh $(PROGRAM)
	python3 tests/answers.py $(PROGRAM)
	python3 tests/beside_plain.py $(PROGRAM) examples/*
	python3 tests/second_opinion.py $(PROGRAM)
	python3 tests/hostile.py $(PROGRAM)
	python3 tests/hostile_beside.py $(PREPARES) $(EXPLAINS)
	python3 tests/handed_on.py $(PROGRAM)
	python3 tests/sha256.py $(PROGRAM)
	python3 tests/skews.py $(PROGRAM)
	python3 tests/live.py $(PROGRAM)
	python3 tests/live_beside_audit.py $(PROGRAM)
	tests/no_memory.sh $(PROGRAM)
	python3 tests/closed_streams.py $(PROGRAM) $(PREPARES) $(EXPLAINS)
	tests/install.sh $(PROGRAM) $(PREPARES) $(EXPLAINS)
	python3 tests/man_pages.py $(PROGRAM) $(PREPARES) $(EXPLAINS)
	python3 tests/collect.py
	tests/fleet.sh $(PROGRAM)
	python3 tests/fleet_steps.py $(PROGRAM)
	python3 tests/fuzz.py $(PROGRAM) --seconds 20 --seed 1 examples/*
	python3 tests/fuzz_beside.py $(PREPARES) $(EXPLAINS) --seconds 20 --seed 1 examples/*
	python3 tests/random_captures.py $(PROGRAM) --count 500 --most 0
	python3 tests/call_captures.py $(PROGRAM) --count 200 --most 0
	python3 tests/edge_captures.py $(PROGRAM) --count 2000 --most 13
	python3 tests/wide_skews.py $(PROGRAM)
	python3 tests/machine_captures.py $(MACHINE) $(PROGRAM)
	python3 tests/prepare.py $(PREPARES)
	python3 tests/prepared.py $(PREPARES) $(PROGRAM)
	python3 tests/failing_calls.py $(PREPARES) $(EXPLAINS) --every 10
	python3 tests/wrong_files.py $(PREPARES) $(EXPLAINS)
	python3 tests/ready.py $(PREPARES) $(PROGRAM)
	python3 tests/looking.py $(PREPARES)
	python3 tests/progress.py $(PREPARES) $(EXPLAINS)
	python3 tests/fragments.py $(PREPARES) $(PROGRAM)
	python3 tests/shown_faults.py $(EXPLAINS) $(PROGRAM)
	python3 tests/repeated_data.py $(EXPLAINS)
	python3 tests/equal_data.py $(EXPLAINS)
	python3 tests/explain.py $(EXPLAINS)
	python3 tests/explain_page.py $(EXPLAINS)
	tests/kit.sh $(PROGRAM) $(EXPLAINS)

# Gives the programs damaged captures, policies, credentials, configurations and certificates, and looks at how they answer.
fuzz: $(PROGRAM) turnprep turnexplain
	python3 tests/fuzz.py $(PROGRAM) --seconds $(SECONDS) examples/*
	python3 tests/fuzz_beside.py $(PREPARES) $(EXPLAINS) --seconds $(SECONDS) examples/*
