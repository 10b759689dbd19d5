# test: everything that must hold, as the gate runs it.   demo: build and run the main job.
# fuzz: compare both implementations until stopped; ARGS="--seed 7 --cases 1000000" repeats a run.
# bench: measure, and write docs/PERFORMANCE.md; BEFORE=FOLDER holds it against an earlier revision that was built there.
# lint: look at scripts and Rust with shellcheck, rustfmt and clippy.
.PHONY: test demo fuzz bench lint

test:
	@scripts/test.sh

demo:
	@scripts/demo.sh

fuzz:
	@scripts/fuzz.sh $(ARGS)

bench:
	@scripts/bench.sh $(if $(BEFORE),--before "$(BEFORE)")

lint:
	@scripts/lint.sh
