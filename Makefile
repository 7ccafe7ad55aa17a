# The usual words for the scripts that do the work. README.md and docs/GATE.md tell of these.
.PHONY: all check test row install dist bench doc

all: ## proves and builds index-tool
	./index-tool prove

check: ## runs the test command, which takes an hour or more, with a log in out/gate.log
	mkdir -p out && bash -o pipefail -c './check 2>&1 | tee out/gate.log'

test: ## runs the tests of the built programs, or those whose names have T in them: make test T=kept
	python3 -m tests $(if $(T),-k '$(T)',ci --except sources)

row: ## makes the tables of rows and their answers anew (tests/model)
	tests/model/run --write

install: ## installs program and library below a folder: make install PREFIX=/usr/local
	./install $(PREFIX)

dist: ## makes the packages, with the log of the last check, in out/dist
	tools/dist

bench: ## compares index-tool with git
	bench/run

doc: ## makes pictures, tables, manual page and completions of the sources
	docs/draw && docs/map && docs/figures && docs/words
