# make run: proves and builds the program, and answers the sample sheet. make test: the gate.
.PHONY: run test

run:
	cd crates/sheet && rt run > /dev/null
	crates/sheet/out/sheet < samples/ledger.sheet > crates/sheet/out/ledger.answers
	samples/show samples/ledger.sheet crates/sheet/out/ledger.answers

test:
	.ci/run
