#!/bin/sh
# Fuzzes the library beside the reference (make fuzz) for some seconds: PCIV_FUZZ_SECONDS, 60 unless set. Starts from
# tests/fuzz/corpus.txt; new inputs go to build/fuzz/corpus, one that fails to build/fuzz/found. Arguments go to the
# fuzzer, which is libFuzzer. PCIV_FUZZ_ASAN=1 builds the Rust side with AddressSanitizer. PCIV_FUZZ_SKIP names routines
# of which the library's are not called. PCIV_FUZZ_FROM_NOTHING=1 starts from nothing and keeps no inputs.
# Wants libpciv_c.a in PCIV_LIB_DIR (default crates/pciv_c/out); relative paths start at the repository's root.
set -u

cd "$(dirname "$0")/../.." || exit 1
seconds=${PCIV_FUZZ_SECONDS:-60}
work=build/fuzz
target=x86_64-unknown-linux-gnu
export PCIV_LIB_DIR="${PCIV_LIB_DIR:-crates/pciv_c/out}"

# Counters of branches and comparisons in Rust code, as libFuzzer reads them.
flags='-C passes=sancov-module -C llvm-args=-sanitizer-coverage-level=4'
flags="$flags -C llvm-args=-sanitizer-coverage-inline-8bit-counters -C llvm-args=-sanitizer-coverage-pc-table"
flags="$flags -C llvm-args=-sanitizer-coverage-trace-compares -C codegen-units=1 -C overflow-checks=on"
name=fuzz
sanitizers=fuzzer
if [ -n "${PCIV_FUZZ_ASAN:-}" ]; then
    name=fuzz-asan
    sanitizers=fuzzer,address
    flags="$flags -Z sanitizer=address -Z external-clangrt"
fi

mkdir -p "$work/corpus" "$work/found"
rm -rf "$work/seeds"
echo 'int LLVMFuzzerTestOneInput(void) { return 0; }' >"$work/try.c"
if ! clang -fsanitize="$sanitizers" -o "$work/try" "$work/try.c" >"$work/try.log" 2>&1; then
    cat "$work/try.log"
    echo 'fuzz: wants clang with libFuzzer and its sanitizers; on Debian: apt-get install clang libclang-rt-14-dev'
    exit 1
fi

new=$work/corpus
if [ -n "${PCIV_FUZZ_FROM_NOTHING:-}" ]; then
    new=$work/new
    rm -rf "$new"
    mkdir -p "$new" "$work/seeds"
else
    cargo run --quiet --release --offline -p fuzz --bin corpus unpack "$work/seeds" tests/fuzz/corpus.txt || exit 1
fi
if [ "$name" = fuzz-asan ]; then
    # The option -Z is not stable; with this the stable compiler takes it.
    export RUSTC_BOOTSTRAP=1
fi
RUSTFLAGS=$flags cargo rustc --quiet --release --offline -p fuzz --lib --crate-type staticlib \
    --target "$target" --target-dir "$work/$name-cargo" || exit 1
clang -fsanitize="$sanitizers" -o "$work/$name" "$work/$name-cargo/$target/release/libfuzz.a" \
    -lpthread -ldl -lm || exit 1

log=$work/$name.log
if ! "$work/$name" -max_total_time="$seconds" -max_len=600 -timeout=20 -print_final_stats=1 \
    -artifact_prefix="$work/found/" "$@" "$new" "$work/seeds" >"$log" 2>&1; then
    grep -v '^#[0-9]' "$log" | tail -n 60
    echo "fuzz: failed; the whole log is $log"
    exit 1
fi
grep -E 'INITED|DONE|^stat::' "$log"
echo 'fuzz: no differences'
