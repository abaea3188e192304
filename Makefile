# The project's commands; `make` alone lists them.
.PHONY: help test check cards lib install bench clean

PREFIX ?= /usr/local

help:
	@echo 'make test              passes all tests; what rt ci passed on this machine is not proved again'
	@echo 'make check [CRATE=..]  proves one crate and what it stands on, or all, where they changed'
	@echo 'make cards             runs the card program on the shipped cards'
	@echo 'make lib               makes the static library for this machine, where something changed'
	@echo 'make install PREFIX=.. installs library, header, and files for pkg-config and CMake; DESTDIR= goes in front'
	@echo 'make bench             times the library against the published Rust'
	@echo 'make clean             removes all that was made'

test:
	@tools/test

check:
	@bash -o pipefail -c '{ $(if $(CRATE),cd crates/$(CRATE) && rt check,rt all check); } 2>&1 | tools/progress'

cards:
	@tools/cards

lib:
	@tools/native-archive

install: lib
	@tools/install '$(DESTDIR)' '$(PREFIX)'

bench: lib
	@cd tests && cargo run --offline --locked --quiet --release --package bench

clean:
	rm -rf target tests/target bindings/rust/target crates/*/out
