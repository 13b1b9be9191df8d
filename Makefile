# make run: prove, build and run the main job on a shipped example; make test: the gate.
.PHONY: run test

run:
	cd crates/carry && rt run -- data/spring.steps

test:
	.ci/run
