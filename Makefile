# `make run` shows the main program at work on a bundled sheet; `make test` is the gate.
.PHONY: run test

run:
	cd crates/siteplan && rt run < ../../examples/mill.sheet

test:
	@bash .ci/gate
