# make run: proves, links and runs the program on its stored input.
# make test: the whole gate.
SHELL := /bin/bash
.PHONY: run test listed

run:
	@cd crates/pick && rt run < stdin

test: listed
	@tools/gate

# Every folder of crates/ has its line in crates.txt, and every line its folder.
listed:
	@diff <(sed 's/[#:].*//; s/[[:space:]]//g; /^$$/d' crates.txt | sort) <(ls -A crates | sort) \
	|| { echo 'crates.txt (<) and the folders of crates/ (>) differ'; exit 1; }
