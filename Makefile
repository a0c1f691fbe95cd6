# make test: the gate.  make check: what takes two minutes of it, for who edits.  make run: proves and builds `bench`, and runs it on the sample captures.
# make pages: writes the made parts of docs/ anew.
# make soak SEEDS=n: the comparison with the second program on n seeds more.  make speed: how quick `bench` is.
# make mistakes: what the comparison finds of mistakes in the second program.
.PHONY: test check run pages soak speed mistakes

SEEDS = 10

test:
	@tools/gate

check:
	@tools/check

run:
	@tools/samples

pages:
	@tools/pages write

soak:
	@tools/soak $(SEEDS)

speed:
	@tools/speed

mistakes:
	@tools/mistakes
