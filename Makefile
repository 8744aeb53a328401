# make run    proves, builds and runs `trials`, which prints document 01's bench trials; and, where gcc is there, prints a melt sheet
# make test   everything that must pass; it stops at the first failing step
# make bench  times of the calls, as ratios to the optimised Rust
# make growth how times grow with what is lent, recorded in docs/growth.txt and drawn in docs/growth.svg

SECONDS_OF_RANDOM ?= 10
SEED ?= 1

# a step: its name and its command; says how long it took
step = @start=$$(date +%s) && echo "== $(1)" && $(2) && echo "== $(1): $$(($$(date +%s) - start)) s"

.PHONY: run test bench growth claims header proved refused library symbols examples refusals compare

run:
	$(call step,trials proved with all that it stands on (log: build/run.log),tools/quietly build/run.log sh -c 'cd crates/trials && rt run > /dev/null')
	@crates/trials/out/trials
	@echo && tools/melt-sheet

# `rt ci` comes before all that needs a proved crate: what it has proved is not proved again behind it. It refuses files that are not in rt fmt's layout. Its 'N passed, 0 failed'
# is said again as the last line.
test: claims header proved refused library symbols examples refusals compare
	@tail -n 1 build/ci.log

claims:
	$(call step,names and paths in docs/CLAIMS.md,tools/check-claims)

proved:
	$(call step,rt ci: every crate; every must-fail edit; every program (log: build/ci.log),tools/proved)

# what earlier runs on this machine found of the same files is not tried again
refused:
	$(call step,each wrong answer is wrong and is refused for that,tools/check-refusals)

library:
	$(call step,static library,tools/quietly build/library.log tools/library)

header:
	$(call step,header and Rust declarations beside the source,tools/check-layout)

symbols: library
	$(call step,symbols of the library,tools/check-symbols)

examples: library
	$(call step,examples in C and Rust,tools/examples)

# what check-refusals says is worth something only if it finds out what is not wrong
refusals: library
	$(call step,false wrong answers found out,tools/quietly build/refusals.log tools/test-check-refusals)

compare: library
	$(call step,comparing with the Rust,tools/with-nomt tools/compare $(SECONDS_OF_RANDOM) $(SEED))

bench: library
	@tools/with-nomt tools/compare bench

# both files are replaced only when there are rows and they were drawn
growth: library
	@mkdir -p build
	@tools/with-nomt tools/compare growth > build/growth.txt
	@tools/plot-growth build/growth.txt > build/growth.svg
	@mv build/growth.txt build/growth.svg docs/
