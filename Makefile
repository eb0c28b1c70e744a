# make run               builds filmdist and runs it on the sample films
# make run A=.. B=..     the same on films of your own: A the scanned film, B the drawing
# make guide             runs filmguide on the sample films and a script; takes A, B and SCRIPT
# make test              the gate: proves every crate, tries the must-fail edits, runs every program

SHELL := /bin/bash
.SHELLFLAGS := -eu -o pipefail -c
.PHONY: run guide test

A ?=
B ?=
SCRIPT ?= examples/guide.script

run:
	@echo "make run: proving and building filmdist; a minute or two the first time, seconds after that" >&2
	@(cd crates/filmdist && rt run </dev/null >/dev/null 2>&1) || { echo "not built: 'rt check' in crates/filmdist says why" >&2; exit 1; }
	@if [ -n "$(A)$(B)" ]; then \
		sh examples/run.sh "$(A)" "$(B)"; \
	else \
		echo "examples/good.cells against examples/drawing.cells: distance, film cell x y, drawing cell x y" >&2; \
		sh examples/run.sh examples/good.cells examples/drawing.cells; \
		echo "examples/scratched.cells against examples/drawing.cells" >&2; \
		sh examples/run.sh examples/scratched.cells examples/drawing.cells; \
	fi

guide:
	@echo "make guide: proving and building filmguide; some minutes the first time, seconds after that" >&2
	@(cd crates/filmguide && rt run </dev/null >/dev/null 2>&1) || { echo "not built: 'rt check' in crates/filmguide says why" >&2; exit 1; }
	@sh examples/run.sh "$(or $(A),examples/scratched.cells)" "$(or $(B),examples/drawing.cells)" filmguide < "$(SCRIPT)"

test:
	@echo "make test: the whole gate; from nothing it takes some half an hour on four processors, longer on two" >&2
	@bash .ci/run
