# Each target's line is what 'make help' shows.
MAKEFLAGS += --no-print-directory
.PHONY: help demo test check fmt soak bench install

help: ## these lines
	@sed -n 's/^\([a-z]*\):.*## /  make \1\t/p' Makefile | expand -t 18

demo: ## prove and build tick and trace, and show a power cut in the middle of a swap
	@sh tests/demo.sh

test: ## the whole gate (what an earlier run here has proved is kept); the last line is 'N passed, 0 failed'
	@sh tests/gate.sh

check: ## CRATE=name: the edit loop: prove one crate and what it stands on, quickly (not a verdict: make test is)
	@cd crates/$(or $(CRATE),$(error make check CRATE=name, one of those in crates.txt)) && rt check

fmt: ## lay out every file
	@for crate in crates/*; do (cd $$crate && rt fmt) || exit 1; done

soak: ## FROM=1 TO=100000 JOBS=cores: random schedules and images beside the model, as many as told (after make test)
	@sh tests/soak.sh '$(or $(FROM),1)' '$(or $(TO),100000)' $(JOBS)

bench: ## nanoseconds an event; tick and an image's recovery beside the model
	@sh tests/bench.sh

install: ## PREFIX=/usr/local: the recovery for C and Fortran
	@DESTDIR='$(DESTDIR)' sh tools/install.sh '$(or $(PREFIX),/usr/local)'
