#!/bin/sh
# Shows that the fuzzer finds faults: puts those of faults.c into copies of the library, one into each, and fuzzes each
# for up to PCIV_FUZZ_SECONDS (60 unless set), from nothing, without the corpus. Prints when each was found.
# Wants libpciv_c.a as fuzz.sh does, and objcopy.
set -u

cd "$(dirname "$0")/../.." || exit 1
archive=${PCIV_LIB_DIR:-crates/pciv_c/out}/libpciv_c.a
work=build/fuzz/faults
missed=''

# found FAULT: what the fuzzer's log says of the difference.
found() {
    sed -n -e 's/^assertion .* failed: //p' -e 's/^\([a-z_]*: .*element .*\)$/\1/p' \
        -e 's/^SUMMARY: .*SEGV.* in \(pciv_.*\)$/\1: access out of bounds/p' build/fuzz/fuzz.log | head -n 1
}

sed -n 's/^#define \([a-z_]*\) [0-9]*$/\1/p' tests/fuzz/faults.c >"$work.txt"
while read -r fault; do
    rm -rf "$work"
    mkdir -p "$work"
    function=$(sed -n "/FAULT == $fault\\b/,/^uint64_t exact/s/^uint64_t exact_\\([a-z_]*\\)(.*/\\1/p" tests/fuzz/faults.c | head -n 1)
    objcopy --redefine-sym "$function=exact_$function" "$archive" "$work/libpciv_c.a" &&
        gcc -std=c11 -Wall -Wextra -Werror -Wno-unused-function -O2 -fPIC -Iinclude -DFAULT="$fault" \
            -c tests/fuzz/faults.c -o "$work/fault.o" &&
        ar r "$work/libpciv_c.a" "$work/fault.o" 2>/dev/null || exit 1
    if PCIV_LIB_DIR=$work PCIV_FUZZ_FROM_NOTHING=1 sh tests/fuzz/fuzz.sh >"$work/log" 2>&1; then
        missed="$missed $fault"
        echo "$fault: not found"
    else
        runs=$(sed -n 's/^stat::number_of_executed_units: //p' build/fuzz/fuzz.log)
        echo "$fault: found in run ${runs:-?}: $(found)"
    fi
done <"$work.txt"
rm -rf "$work"
[ -z "$missed" ]
