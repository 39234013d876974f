#!/bin/sh
# Tests the report program on inputs made by the reference, and on a pipe that delivers in pieces.
# usage: report.sh REPORT FOLDER: the program, and the folder that make_report_inputs has filled.
set -u

report=$1
inputs=$2
actual=$inputs/actual
failures=0
count=0

# expect NAME TEXT_FILE: standard input through the program gives exactly that text.
expect() {
    count=$((count + 1))
    "$report" >"$actual"
    status=$?
    if [ "$status" -ge 126 ]; then
        echo "report: $1: exit status $status"
        failures=$((failures + 1))
    elif ! cmp -s "$actual" "$2"; then
        echo "report: $1: expected"
        cat "$2"
        echo "report: $1: printed"
        head -c 400 "$actual"
        failures=$((failures + 1))
    fi
}

# expect_lines NAME LINE..: the input of that name gives exactly these lines.
expect_lines() {
    name=$1
    shift
    printf '%s\n' "$@" >"$inputs/lines"
    expect "$name, lines" "$inputs/lines" <"$inputs/$name.pciv"
}

# in_pieces FILE FIRST SECOND: the file with pauses after the first bytes and after some more.
in_pieces() {
    head -c "$2" "$1"
    sleep 0.1
    tail -c +$(($2 + 1)) "$1" | head -c "$3"
    sleep 0.1
    tail -c +$(($2 + $3 + 1)) "$1"
}

for input in "$inputs"/*.pciv; do
    expect "$(basename "$input")" "${input%.pciv}.txt" <"$input"
done

expect_lines map-a 'slots 4' 'far 2' 'step 0' 'index 0' 'sum 809' 'readings 3'
expect_lines empty-map 'slots 0' 'far 0' 'step 0' 'index 0' 'sum 0' 'readings 0'
expect_lines empty-input 'refused 1 map 1 place 0'
expect_lines map-a-truncated 'refused 5 map 1 place 0'
expect_lines zeros-65536 'refused 2 map 1 place 0'
for name in zeros-65537 sound-65537 sound-65536-then-one-byte; do
    expect_lines "$name" 'refused 12 map 0 place 0'
done

rm -f "$inputs/pipe"
mkfifo "$inputs/pipe"
for name in map-a portrait sound-65536-index sound-65536-then-one-byte; do
    in_pieces "$inputs/$name.pciv" 10 25 >"$inputs/pipe" &
    expect "$name in pieces" "$inputs/$name.txt" <"$inputs/pipe"
    wait
done

echo "report: $count inputs, $failures failures"
[ "$failures" -eq 0 ]
