PROGRAM := crates/ode/out/ode
SESSIONS := crates/ode_multi/out/ode_multi
FILE := out/example.db

.PHONY: all example bench test documents clean

# Proves and builds the programs.
all:
	@checks/build.sh $(PROGRAM) $(SESSIONS)

# Makes a new file, and runs the first example on it: with the program, or where that isn't built by a try without proofs.
example:
	@checks/example.sh $(PROGRAM) $(FILE)

# Transactions a second, of method calls on a real file, beside the bare protocol and SQLite. It wants the program that `make` builds.
bench:
	@test -x $(PROGRAM) || { echo 'Run make first: the program is not built.' >&2; exit 1; }
	@checks/bench.py $(PROGRAM) out/bench

# The whole gate: every proof, test and must-fail edit, and then the real program on real files.
test:
	.ci/run

# Whether each name in the documents still stands where they say.
documents:
	@checks/documents.py

# Removes all that was built, and what earlier checks kept: the next build proves everything again.
clean:
	rm -rf out crates/*/out
