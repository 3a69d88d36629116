# What can be done here: `make` alone lists it.
# It stands on `rt`, the command of the Rattle toolchain, and on Python 3.

.DEFAULT_GOAL := help
.PHONY: help demo try build package serve test interop bench hostile attack fuzz examples clean

PROGRAMS := rs_replay rs_served

help: ## list what can be done
	@grep -hE '^[a-z]+:.*##' $(MAKEFILE_LIST) | sed -E 's/^([a-z]+):.*## /  make \1\t/' | expand -t 18

demo: ## play a recorded session: one route from one member to another (builds without proofs)
	@tools/demo

try: ## run the live server between two members (BIRDs where installed), built without proofs: minutes, and it ends by itself
	@python3 tools/try_live.py

build: ## prove what the programs stand on, and leave them in out/
	@mkdir -p out
	@for program in $(PROGRAMS); do \
		(cd crates/$$program && rt run -- --help) || exit 1; \
		cp crates/$$program/out/$$program out/ || exit 1; \
		echo "out/$$program"; \
	done

package: ## make a Debian package of what `make build` proved (by debhelper and pandoc); tools/packages/try_package.py tries it
	@python3 tools/packages/package.py

serve: ## run the live server for the two members of examples/small.toml, on loopback (make build first)
	@[ -x out/rs_served ] || { echo "out/rs_served isn't there: make build makes it"; exit 1; }
	@out/rs_served --config examples/small.toml --log

test: ## the gate: every proof from nothing, wrong programs that must be refused, tests, recorded sessions
	@python3 tools/gate.py

interop: ## try BIRD, OpenBGPD, FRR, GoBGP and ExaBGP as members, Prometheus, curl and Chromium at the window, and write docs/INTEROP.md (MEMBER=bird: that one alone, no page)
	@[ -x out/rs_served ] || { echo "out/rs_served isn't there: make build makes it"; exit 1; }
	@python3 tools/interop.py out/rs_served $(if $(MEMBER),--member $(MEMBER),--page docs/INTEROP.md)
	@$(if $(MEMBER),:,python3 tools/lookers.py out/rs_served)

bench: ## measure the server among BIRD, OpenBGPD, FRR and GoBGP, and write docs/BENCH.md (FULL=1: all works, about an hour)
	@[ -x out/rs_served ] || { echo "out/rs_served isn't there: make build makes it"; exit 1; }
	@python3 bench/bench.py out/rs_served $(if $(FULL),--full) --page docs/BENCH.md

hostile: ## play hostile members and accidents to the server and to others, and write docs/HOSTILE.md (ROWS=c,d: those alone; all: about an hour)
	@[ -x out/rs_served ] || { echo "out/rs_served isn't there: make build makes it"; exit 1; }
	@python3 tools/hostile.py out/rs_served $(if $(ROWS),--rows $(ROWS)) --page docs/HOSTILE.md

attack: ## try the wrong programs of attacks/, beyond those of the gate (CRATE=rs_octets: those of one crate; CRATE=rs_octets/NAME: NAME.edit alone)
	@python3 tools/attack.py $(CRATE)

fuzz: ## play 2,000 random sessions against the plain function of tools/plain (CASES=100, SEED=7; make test first)
	@python3 tools/fuzz.py crates/rs_replay/out/rs_replay $(or $(CASES),2000) $(SEED)

examples: ## compare the example configurations with those that are tested
	@python3 tools/check_examples.py

clean: ## remove all that was built
	rm -rf out crates/*/out tools/__pycache__ tools/*/__pycache__ bench/__pycache__
