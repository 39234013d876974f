#!/bin/sh
# The whole test (make test): every proof with the layout of the sources, the must-fail edits and the programs (rt ci), then
# the C and Rust side on the archive and the program that are built of what was proved. The last line is rt ci's own.
set -u

cd "$(dirname "$0")/.." || exit 1
mkdir -p build
failed=''

# part NAME LOG COMMAND..: runs a part; the whole log is shown where it fails.
part() {
    name=$1
    log=$2
    shift 2
    echo "== $name"
    if ! "$@" >"$log" 2>&1; then
        cat "$log"
        failed="$failed $name"
    fi
}

# edits LOG: rt ci says that all is well, and counts no must-fail edit that no longer fits its text; such a one passes rt ci.
edits() {
    grep '^rt: ok' "$1" && ! grep -E '^rt: ok.*, [1-9][0-9]* bad' "$1"
}

# rt's progress is shown as it comes; a failed run's whole log too
echo '== proofs'
sh packaging/progress.sh build/rt-ci.log rt ci 2>&1 || failed="$failed proofs"
part edits build/edits.log edits build/rt-ci.log
part archive build/rt-lib.log sh -c 'cd crates/pciv_c && rt lib'
part program build/rt-run.log sh -c 'cd crates/report && rt run'
part comparison build/run.log sh tests/run.sh
cat build/run.log

if [ -n "$failed" ]; then
    echo "failed:$failed"
    exit 1
fi
tail -n 1 build/rt-ci.log
