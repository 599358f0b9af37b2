# The toolchain's `rt` does the work; these are the commands a newcomer needs.
.PHONY: run test gate format

# Prove the program and what it rests on, then run it.
run:
	cd crates/gorqymel && rt run

# Prove every crate, run the programs against their expected output, and prove and run the tests.
test:
	rt all test

# The same, with the layout and the edits that must be refused: what a change has to pass.
gate:
	.ci/run

format:
	for crate in crates/*/; do (cd "$$crate" && rt fmt) || exit 1; done
