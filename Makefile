# Short names for the commands of this repository. `make help` lists them.

.PHONY: help check crate edits plant test gate fmt docs definitions build run install uninstall demo

PREFIX ?= /usr/local
ZSH_FOLDER ?= share/zsh/site-functions
installed := "$(DESTDIR)$(PREFIX)"
programs := vtools vslog
# what is installed beside the programs: where each file lies here, and where below PREFIX
files := $(foreach page,$(notdir $(wildcard docs/man/*.1)),docs/man/$(page):share/man/man1/$(page)) \
  $(foreach name,$(programs),completion/vtools.bash:share/bash-completion/completions/$(name)) \
  $(foreach name,$(programs),completion/$(name).fish:share/fish/vendor_completions.d/$(name).fish) \
  completion/_vtools:$(ZSH_FOLDER)/_vtools \
  $(foreach file,$(wildcard examples/queries/* examples/json.* examples/*.service examples/*.logrotate),\
    $(file):share/doc/vtools/$(file)) LICENSE:share/doc/vtools/copyright

help: ## prints this list
	@sed -n 's/^\([a-z]*\):.*## /\1\t/p' $(MAKEFILE_LIST)

check: ## proves every crate, over what earlier checks kept
	rt all check

crate: ## proves one crate: NAME=vtools
	cd crates/$(NAME) && rt check

edits: ## tries the must-fail edits of one crate, or of all: NAME=vtools
	rt must-fail $(NAME)

plant: ## tries wrong bodies in one crate: NAME=vtools
	cd crates/$(NAME) && rt plant

test: ## runs all tests, cases and examples in minutes, over programs that are built without a proof
	@tools/test

gate: ## the merge gate: tests, proofs, edits, programs, documents and command lines
	.ci/run

fmt: ## lays out every crate
	set -e; for crate in crates/*; do (cd $$crate && rt fmt); done

docs: ## checks the documents, and the tables and the completion that are made
	tools/check docs definitions derives options byte_table completion

definitions: ## makes docs/DEFINITIONS.md, which isn't committed, from specs/ and src/
	tools/definitions.py --write

build: ## proves and builds bin/vtools and bin/vslog
	@tools/build.py $(programs)
	@set -e; for name in $(programs); do echo "$$name .."; \
	  (cd crates/$$name && rt run -- --version); install -D crates/$$name/out/$$name bin/$$name; done

run: build ## runs bin/vtools: ARGS="varnishlog -r FILE"
	bin/vtools $(ARGS)

install: build ## installs programs, man pages, completion and examples: PREFIX=/usr/local DESTDIR=
	@$(MAKE) --no-print-directory place

# what is in bin, proved or not
.PHONY: place
place:
	@set -e; for name in $(programs); do install -D -m 755 bin/$$name $(installed)/bin/$$name; done
	@set -e; for file in $(files); do install -D -m 644 $${file%:*} $(installed)/$${file#*:}; done

uninstall: ## takes away the files of install, with the same PREFIX and DESTDIR
	@set -e; for name in $(programs); do rm -f $(installed)/bin/$$name; done
	@set -e; for file in $(files); do rm -f $(installed)/$${file#*:}; done
	@set -e; for folder in vtools/examples/queries vtools/examples vtools; do folder=$(installed)/share/doc/$$folder; \
	  [ ! -d "$$folder" ] || rmdir --ignore-fail-on-non-empty "$$folder"; done

.PHONY: deb
deb: build ## makes a Debian package of what install puts, below bin/
	@tools/deb.sh

.PHONY: cases
cases: build ## runs the command lines of cases/, and those that data can't say, over the proved program
	tools/check cases edges --program bin/vtools

demo: ## prints the slow requests of a real log, by an unproved build that is thrown away
	@tools/demo.sh
