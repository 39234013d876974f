# rt's whole output goes to build/rt-*.log; its progress, a line for each crate, is shown as it comes.
.DEFAULT_GOAL := help
.PHONY: help report test dist fuzz bench benchmarks

archive = sh packaging/progress.sh build/rt-lib.log sh -c 'cd crates/pciv_c && rt lib'

help: ## lists these targets
	@awk -F ':.*## ' '/^[a-z]+:.*## / { printf "make %-11s %s\n", $$1, $$2 }' Makefile

report: | build ## proves and builds the report program, and runs it on the sample map
	@sh packaging/progress.sh build/rt-run.log sh -c 'cd crates/report && rt run'
	@crates/report/out/report < examples/portrait-160x120.pciv

test: ## the whole test: every proof, the must-fail edits, the programs, then the C and Rust side
	@sh tests/all.sh

dist: | build ## what a C or C++ program needs, in build/dist: header, archive, shared library, pkg-config file
	@$(archive)
	@sh packaging/dist.sh

fuzz: | build ## the library beside the reference under a fuzzer, a minute unless PCIV_FUZZ_SECONDS says otherwise
	@$(archive)
	@sh tests/fuzz/fuzz.sh

bench: | build ## the benchmark, as ratios in one run
	@$(archive)
	@cargo run --quiet --release --offline -p bench

benchmarks: | build ## the same with numpy and OpenCV beside it, as docs/BENCHMARKS.md and its picture
	@$(archive)
	@cargo run --quiet --release --offline -p bench -- report

build:
	mkdir -p build
