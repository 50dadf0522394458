.PHONY: demo build test examples bench

# Builds the program without its proofs, and shows a script with its replies: about a minute.
demo:
	@tools/demo

# Proves and builds the program on all processors, and says where it then stands.
build:
	@tools/build

# The gate: every proof, test, must-fail edit and program run of the repository.
test:
	@tools/examples --only-copies
	bash .ci/run

# Runs every example of the documents, without proofs: about a minute.
examples:
	@tools/examples

# Measures the program beside sqlite3, rsync, cp, borg and restic.
bench:
	@bench/run
