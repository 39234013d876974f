#!/bin/sh
# Builds and runs the C and Rust side: header, C and C++ programs, what make shows and ships, Rust tests, the programs
# that repair and bundle maps, interface, vectorised loops, comparison, test vectors, the fuzzer's corpus, the names in docs/PROMISES.md, report program.
# Wants libpciv_c.a in PCIV_LIB_DIR (default crates/pciv_c/out) and the report program at PCIV_REPORT
# (default crates/report/out/report); relative paths start at the repository's root.
set -u

cd "$(dirname "$0")/.." || exit 1
export PCIV_LIB_DIR="${PCIV_LIB_DIR:-crates/pciv_c/out}"
report=${PCIV_REPORT:-crates/report/out/report}
work=build/tests
dist=build/dist
programs=build/cargo/release
version=$(sed -n 's/^version = "\(.*\)"/\1/p' Cargo.toml)
failed=''

# part NAME COMMAND..: runs a part, its output shown only where it fails.
part() {
    name=$1
    shift
    if "$@" >"$work/log" 2>&1; then
        echo "ok      $name: $(tail -n 1 "$work/log")"
    else
        echo "FAILED  $name"
        cat "$work/log"
        failed="$failed $name"
    fi
}

# expect STATUS TEXT COMMAND..: the command exits so and says the text.
expect() {
    wanted=$1
    text=$2
    shift 2
    "$@" >"$work/said" 2>&1
    status=$?
    if [ "$status" -ne "$wanted" ] || ! grep -qF -e "$text" "$work/said"; then
        echo "$*: exit status $status in place of $wanted, or not the text '$text':"
        cat "$work/said"
        return 1
    fi
}

# as_it_comes: a line of progress is shown while the command still runs, which ends when the line was seen.
as_it_comes() {
    rm -f "$work/seen" "$work/shown"
    sh packaging/progress.sh "$work/progress.log" \
        sh -c "echo 'rt: first'; for i in 1 2 3 4 5 6 7 8 9 10; do [ -f $work/seen ] && exit 0; sleep 0.5; done; exit 1" \
        2>"$work/shown" &
    for i in 1 2 3 4 5 6 7 8; do
        grep -qx 'rt: first' "$work/shown" && : >"$work/seen"
        sleep 0.5
    done
    wait $!
}

# archive_needs: a program without a C library can link the archive with these two functions alone.
archive_needs() {
    nm -u "$PCIV_LIB_DIR/libpciv_c.a" | sed -n 's/^ *U //p' | sort -u >"$work/needs"
    printf 'memcpy\nmemset\n' | diff - "$work/needs" && echo 'memcpy and memset'
}

# `make` lists its targets; rt's progress is shown as it comes, its log is kept, and its status is that of the call.
make_help() {
    for target in help report test dist fuzz bench benchmarks; do
        expect 0 "make $target " make --no-print-directory || return 1
    done
    grep -c '^make ' "$work/said" | grep -qx 7 &&
        expect 0 'rt: a proved (1 s)' sh packaging/progress.sh "$work/progress.log" \
            sh -c 'echo "rt: a proved (1 s)"; echo other >&2' &&
        ! grep -q other "$work/said" && grep -qx other "$work/progress.log" &&
        expect 3 other sh packaging/progress.sh "$work/progress.log" sh -c 'echo other >&2; exit 3' &&
        as_it_comes &&
        echo 'lists its targets, and shows what rt says as it comes'
}

header_c() {
    gcc -std=c11 -pedantic -Wall -Wextra -Werror -fsyntax-only -x c include/pciv.h &&
        echo 'compiles as C11'
}

header_cpp() {
    g++ -std=c++17 -pedantic -Wall -Wextra -Werror -fsyntax-only -x c++ include/pciv.h &&
        echo 'compiles as C++17'
}

c_smoke() {
    gcc -std=c11 -pedantic -Wall -Wextra -Werror -O2 -Iinclude -o "$work/c_smoke" tests/c_smoke.c \
        "$PCIV_LIB_DIR/libpciv_c.a" &&
        "$work/c_smoke"
}

cpp_smoke() {
    g++ -std=c++17 -pedantic -Wall -Wextra -Werror -O2 -Iinclude -o "$work/cpp_smoke" tests/cpp_smoke.cpp \
        "$PCIV_LIB_DIR/libpciv_c.a" &&
        "$work/cpp_smoke"
}

# What is shipped; without a shared library there is nothing, and an exit status that says so.
dist() {
    mkdir -p "$work/no-gcc" && printf '#!/bin/sh\nexit 1\n' >"$work/no-gcc/gcc" && chmod +x "$work/no-gcc/gcc" &&
        expect 1 'gcc makes no shared library' env PATH="$PWD/$work/no-gcc:$PATH" sh packaging/dist.sh &&
        [ ! -e "$dist" ] &&
        expect 1 'no-archive/libpciv_c.a is missing' env PCIV_LIB_DIR="$work/no-archive" sh packaging/dist.sh &&
        sh packaging/dist.sh
}

# with_shared PROGRAM COMMAND..: builds a program by the command with what is shipped alone, and runs it with the shared
# library, whose name has the version's first two numbers.
with_shared() {
    program=$1
    shift
    "$@" -I"$dist/include" -L"$dist/lib" -lpciv_c -o "$program" &&
        readelf -d "$program" | grep -F NEEDED | grep -qF "[libpciv_c.so.${version%.*}]" &&
        LD_LIBRARY_PATH="$dist/lib" "$program"
}

c_shared() {
    with_shared "$work/c_shared" gcc -std=c11 -O2 tests/c_smoke.c
}

cpp_shared() {
    with_shared "$work/cpp_shared" g++ -std=c++17 -O2 tests/cpp_smoke.cpp
}

build() {
    cargo build --release --offline --workspace
}

rust_tests() {
    cargo test --release --offline --workspace && echo 'all passed'
}

# block LANGUAGE NUMBER: a program in README.md, which has several in that language.
block() {
    awk -v start="\`\`\`$1" -v wanted="$2" '
        $0 == start { seen++; inside = seen == wanted; next }
        /^```$/ { inside = 0 }
        inside' README.md
}

# limited COMMAND..: where a file may have a few blocks and no more.
limited() {
    (
        trap '' XFSZ
        ulimit -f 8
        "$@"
    )
}

# stroke_keeps PROGRAM: it does not write over its map, takes nothing for a distance that is none, and where it fails
# leaves OUT as it was and nothing else.
stroke_keeps() {
    folder=$work/strokes
    map=$folder/map
    rm -rf "$folder" && mkdir "$folder" && cp examples/portrait-160x120.pciv "$map" &&
        ln -s map "$folder/link" && ln "$map" "$folder/hard" && echo old >"$folder/old" &&
        head -c 62147 "$map" >"$folder/short" || return 1
    for same in map link hard; do
        expect 1 'is the map itself' "$1" "$map" 100 "$folder/$same" || return 1
    done
    for number in abc -5 +5 4294967296 99999999999999999999 5x ' 5' ''; do
        expect 2 'usage: stroke MAP DISTANCE OUT' "$1" "$map" "$number" "$folder/out" || return 1
    done
    expect 2 'usage: stroke MAP DISTANCE OUT' "$1" "$map" 100 &&
        expect 1 'refused 5 map 1 place 0: the file is not as long as its header says' \
            "$1" "$folder/short" 100 "$folder/out" &&
        expect 1 'File too large' limited "$1" "$map" 100 "$folder/old" &&
        cmp "$map" examples/portrait-160x120.pciv && grep -qx old "$folder/old" || return 1
    left=$(cd "$folder" && echo *)
    [ "$left" = 'hard link map old short' ] || { echo "$1: left $left"; return 1; }
    expect 0 '48 edits' "$1" "$map" 100 "$folder/old" && cmp "$folder/old" "$work/c.pciv" && [ ! -e "$folder/old.tmp" ]
}

# strokes_agree MAP: C and Rust exit alike, say the same and write the same, a refusal included.
strokes_agree() {
    rm -f "$work/c.pciv" "$work/rust.pciv"
    "$work/stroke" "$1" 100 "$work/c.pciv" >"$work/c.txt" 2>&1
    status=$?
    "$programs/examples/stroke" "$1" 100 "$work/rust.pciv" >"$work/rust.txt" 2>&1
    [ $? -eq "$status" ] && cmp "$work/c.txt" "$work/rust.txt" || return 1
    case $status in
    0) cmp "$work/c.pciv" "$work/rust.pciv" ;;
    1) grep -q '^stroke: refused ' "$work/c.txt" && [ ! -e "$work/c.pciv" ] && [ ! -e "$work/rust.pciv" ] ;;
    *) return 1 ;;
    esac
}

# The examples: C and Rust print the same and write the same file, also for damaged maps.
examples() {
    gcc -std=c11 -pedantic -Wall -Wextra -Werror -O2 -Iinclude -o "$work/stroke" \
        examples/stroke.c "$PCIV_LIB_DIR/libpciv_c.a" &&
        cargo build --release --offline -p pciv --examples &&
        "$programs/make_report_inputs" "$work/report" || return 1
    for input in "$work"/report/*.pciv; do
        strokes_agree "$input" || { echo "$input: C and Rust differ"; return 1; }
    done
    strokes_agree examples/portrait-160x120.pciv && grep -qx '48 edits: .*' "$work/c.txt" &&
        stroke_keeps "$work/stroke" && stroke_keeps "$programs/examples/stroke" &&
        while IFS= read -r line; do
            grep -qxF -e "$line" README.md || { echo "README.md does not have: $line"; return 1; }
        done <"$work/c.txt" &&
        block c 2 | cmp - examples/stroke.c &&
        block rust 3 | cmp - rust/pciv/examples/stroke.rs &&
        echo 'C and Rust agree, and README.md has them with their output'
}

# put FILE OFFSET TEXT: puts bytes into a file, in printf's escapes.
put() {
    printf "$3" | dd of="$1" bs=1 seek="$2" conv=notrunc status=none
}

# repaired PROGRAM MAP SLOTS FAR FILE LINE..: it says these lines and no more, and writes a file like that one.
repaired() {
    program=$1
    map=$2
    slots=$3
    far=$4
    wanted=$5
    shift 5
    rm -f "$work/out.pciv"
    "$program" "$map" "$slots" "$far" "$work/out.pciv" >"$work/said" 2>&1 && printf '%s\n' "$@" | cmp - "$work/said" &&
        cmp "$work/out.pciv" "$wanted" && [ ! -e "$work/out.pciv.tmp" ] ||
        { echo "$program $map $slots $far: not so, it said"; cat "$work/said"; return 1; }
}

# repair_repairs PROGRAM: the spoiled sample map, and the worked examples of docs/FORMAT.md.
repair_repairs() {
    folder=$work/repairs
    a=examples/map-a.pciv
    rm -rf "$folder" && mkdir "$folder" && cp "$a" "$folder/spoiled" && put "$folder/spoiled" 0 '\007' &&
        put "$folder/spoiled" 32 '\011' && head -c 44 "$a" >"$folder/swapped" && tail -c 12 "$a" >>"$folder/swapped" &&
        head -c 56 "$a" | tail -c 12 >>"$folder/swapped" && printf 'PCIV' >"$folder/empty" &&
        head -c 36 /dev/zero >>"$folder/empty" &&
        head -c 44 "$a" >"$folder/without-255" && tail -c 12 "$a" >>"$folder/without-255" &&
        put "$folder/without-255" 16 '\001' && put "$folder/without-255" 42 '\376' &&
        head -c 56 "$a" >"$folder/without-300" && put "$folder/without-300" 16 '\001' &&
        put "$folder/without-300" 43 '\376' &&
        repaired "$1" examples/portrait-160x120-spoiled.pciv 19200 2145 examples/portrait-160x120.pciv \
            '1 16 0 2145 (header: overflow entries)' '1 24 0 1073 (header: index entries)' \
            '1 32 0 2 (header: step of the index)' '4 0 17168 17168 (index made anew: its bytes)' \
            '4 corrections: 19200 slots, 2145 in overflow, 62148 bytes, mean 220.2 cm' &&
        while IFS= read -r line; do
            grep -qxF -e "$line" README.md || { echo "README.md does not have: $line"; return 1; }
        done <"$work/said" &&
        repaired "$1" "$a" 4 2 "$a" '0 corrections: 4 slots, 2 in overflow, 68 bytes, mean 202.2 cm' &&
        repaired "$1" "$folder/spoiled" 4 2 "$a" \
            '1 0 1447641863 1447641936 (header: the letters PCIV)' '1 32 9 0 (header: step of the index)' \
            '2 corrections: 4 slots, 2 in overflow, 68 bytes, mean 202.2 cm' &&
        repaired "$1" "$folder/swapped" 4 2 "$folder/without-255" \
            '1 16 2 1 (header: overflow entries)' '2 1 2 0 (overflow entry dropped: its slot)' \
            '3 2 255 254 (slot without an overflow entry: now 254 cm)' \
            '3 corrections: 4 slots, 1 in overflow, 56 bytes, mean 202.0 cm' &&
        repaired "$1" "$a" 4 1 "$folder/without-300" \
            '1 16 2 1 (header: overflow entries)' '3 3 255 254 (slot without an overflow entry: now 254 cm)' \
            '4 0 12 0 (index made anew: its bytes)' '3 corrections: 4 slots, 1 in overflow, 56 bytes, mean 190.8 cm' &&
        repaired "$1" "$folder/empty" 0 0 "$folder/empty" '0 corrections: 0 slots, 0 in overflow, 40 bytes, mean 0.0 cm'
}

# repair_keeps PROGRAM: it may write over its map, which keeps its mode; where it fails it says why, and leaves OUT as it
# was and nothing else.
repair_keeps() {
    folder=$work/repairs
    map=$folder/map
    usage='usage: repair MAP SLOTS FAR OUT'
    rm -rf "$folder" && mkdir "$folder" "$folder/inner" && cp examples/portrait-160x120-spoiled.pciv "$map" &&
        echo old >"$folder/old" && echo other >"$folder/taken.tmp" || return 1
    for number in abc -5 +5 18446744073709551616 99999999999999999999 5x ' 5' '' 0x5; do
        expect 2 "$usage" "$1" "$map" "$number" 2145 "$folder/out" &&
            expect 2 "$usage" "$1" "$map" 19200 "$number" "$folder/out" || return 1
    done
    expect 2 "$usage" "$1" "$map" 19200 2145 && expect 2 "$usage" "$1" "$map" 19200 2145 "$folder/out" more &&
        expect 1 'none: No such file or directory' "$1" "$folder/none" 19200 2145 "$folder/out" &&
        expect 1 'inner: Is a directory' "$1" "$folder/inner" 19200 2145 "$folder/out" || return 1
    # slots, overflow entries, and the refusal that they give
    while read -r slots far refusal; do
        expect 3 "$refusal" "$1" "$map" "$slots" "$far" "$folder/old" && head -n 1 "$work/said" | grep -qxF "$refusal" ||
            return 1
    done <<END
1048577 0 refused 3 map 1 place 0
18446744073709551615 18446744073709551615 refused 3 map 1 place 0
19200 19201 refused 4 map 1 place 0
0 18446744073709551615 refused 4 map 1 place 0
19200 3576 refused 5 map 1 place 0
62109 0 refused 5 map 1 place 0
1048576 1048576 refused 5 map 1 place 0
END
    expect 1 'taken.tmp: File exists' "$1" "$map" 19200 2145 "$folder/taken" &&
        expect 1 'inner: is no regular file' "$1" "$map" 19200 2145 "$folder/inner" &&
        expect 1 'none/out.tmp: No such file or directory' "$1" "$map" 19200 2145 "$folder/none/out" &&
        expect 1 'File too large' limited "$1" "$map" 19200 2145 "$folder/old" &&
        expect 1 'standard output: ' sh -c '"$@" >/dev/full' sh "$1" "$map" 19200 2145 "$folder/old" &&
        cmp "$map" examples/portrait-160x120-spoiled.pciv && grep -qx old "$folder/old" &&
        grep -qx other "$folder/taken.tmp" || return 1
    left=$(cd "$folder" && echo * inner/*)
    [ "$left" = 'inner map old taken.tmp inner/*' ] || { echo "$1: left $left"; return 1; }
    chmod 640 "$map" && expect 0 '4 corrections' "$1" "$map" 19200 2145 "$map" &&
        cmp "$map" examples/portrait-160x120.pciv && [ "$(stat -c %a "$map")" = 640 ] &&
        expect 0 '4 corrections' "$1" examples/portrait-160x120-spoiled.pciv 19200 2145 "$folder/old" &&
        cmp "$folder/old" examples/portrait-160x120.pciv && [ ! -e "$folder/old.tmp" ] && [ ! -e "$map.tmp" ]
}

# repairs_agree MAP SLOTS FAR: C and Rust exit alike, say the same and write the same, a refusal included.
repairs_agree() {
    rm -f "$work/c.pciv" "$work/rust.pciv"
    "$work/repair" "$1" "$2" "$3" "$work/c.pciv" >"$work/c.txt" 2>&1
    status=$?
    "$programs/examples/repair" "$1" "$2" "$3" "$work/rust.pciv" >"$work/rust.txt" 2>&1
    [ $? -eq "$status" ] && cmp "$work/c.txt" "$work/rust.txt" || return 1
    case $status in
    0) cmp "$work/c.pciv" "$work/rust.pciv" ;;
    3) grep -q '^refused ' "$work/c.txt" && [ ! -e "$work/c.pciv" ] && [ ! -e "$work/rust.pciv" ] ;;
    *) return 1 ;;
    esac
}

# The program that repairs maps, in C and in Rust.
repair_program() {
    gcc -std=c11 -pedantic -Wall -Wextra -Werror -O2 -Iinclude -o "$work/repair" \
        examples/repair.c "$PCIV_LIB_DIR/libpciv_c.a" &&
        cargo build --release --offline -p pciv --examples &&
        "$programs/make_report_inputs" "$work/report" || return 1
    for input in "$work"/report/*.pciv; do
        for counts in '4 2' '0 0' '19200 2145' '19200 3000' '30000 2500' '65000 20' '2000000 1'; do
            # two words
            repairs_agree "$input" $counts || { echo "$input $counts: C and Rust differ"; return 1; }
        done
    done
    for program in "$work/repair" "$programs/examples/repair"; do
        repair_repairs "$program" && repair_keeps "$program" || return 1
    done
    echo 'C and Rust agree, and README.md has what they print'
}

# bundled PROGRAM BUNDLE LINE..: it packs the maps of $maps into a new bundle, and reads it, and says these lines both times.
bundled() {
    program=$1
    bundle=$2
    shift 2
    # several words
    "$program" "$bundle" $maps >"$work/said" 2>&1 && printf '%s\n' "$@" | cmp - "$work/said" &&
        "$program" "$bundle" >"$work/said" 2>&1 && printf '%s\n' "$@" | cmp - "$work/said" ||
        { echo "$program $bundle $maps: not so, it said"; cat "$work/said"; return 1; }
}

# bundle_packs PROGRAM: the sample map twice, the worked examples, eight frames, no readings, no slots.
bundle_packs() {
    folder=$work/bundles
    sample=examples/portrait-160x120.pciv
    a=examples/map-a.pciv
    rm -rf "$folder" && mkdir "$folder" &&
        { printf '\010\0\0\0\0\0\0\113\0\0\002\0' && printf '\306\362\0\0\001\0' && cat "$sample" &&
            printf '\306\362\0\0\001\0' && cat "$sample"; } >"$folder/wanted" &&
        maps="$sample $sample" bundled "$1" "$folder/burst" '2 frames of 19200 slots, 124320 bytes' \
            'nearest readings: 19028 slots, mean 222.1 cm' 'nearest slot: 8068, by frame 82 82 cm' &&
        cmp "$folder/burst" "$folder/wanted" &&
        while IFS= read -r line; do
            grep -qxF -e "$line" README.md || { echo "README.md does not have: $line"; return 1; }
        done <"$work/said" || return 1
    # the map 1, 1, 1, 4294967295, one of four zeros, and one of no slots
    { printf 'PCIV' && head -c 36 /dev/zero && printf '\001\001\001\377\003\0\0\0\0\0\0\0\377\377\377\377'; } >"$folder/b" &&
        put "$folder/b" 8 '\004' && put "$folder/b" 16 '\001' &&
        { printf 'PCIV' && head -c 40 /dev/zero; } >"$folder/zeros" && put "$folder/zeros" 8 '\004' &&
        { printf 'PCIV' && head -c 36 /dev/zero; } >"$folder/empty" &&
        maps="$a $folder/b" bundled "$1" "$folder/a-b" '2 frames of 4 slots, 148 bytes' \
            'nearest readings: 4 slots, mean 75.8 cm' 'nearest slot: 0, by frame 0 1 cm' &&
        maps="$a $folder/zeros $a $a $a $a $a $a" bundled "$1" "$folder/eight" '8 frames of 4 slots, 580 bytes' \
            'nearest readings: 3 slots, mean 269.7 cm' 'nearest slot: 1, by frame 254 0 254 254 254 254 254 254 cm' &&
        maps="$folder/zeros $folder/zeros" bundled "$1" "$folder/two" '2 frames of 4 slots, 112 bytes' 'no readings' &&
        maps="$folder/empty" bundled "$1" "$folder/one" '1 frames of 0 slots, 58 bytes' 'no readings' &&
        printf '\003\0\0\0\002\0.' >>"$folder/a-b" &&
        expect 0 'nearest slot: 0, by frame 0 1 cm' "$1" "$folder/a-b" &&
        grep -qx '2 frames of 4 slots, 155 bytes' "$work/said"
}

# bundle_keeps PROGRAM: where it fails it says why, and makes and changes nothing.
bundle_keeps() {
    folder=$work/bundles
    map=$folder/map
    usage='usage: bundle BUNDLE MAP.., to pack one to eight maps; bundle BUNDLE, to read it'
    rm -rf "$folder" && mkdir "$folder" "$folder/inner" && cp examples/portrait-160x120.pciv "$map" &&
        head -c 62147 "$map" >"$folder/short" && cp examples/map-a.pciv "$folder/small" &&
        "$1" "$folder/burst" "$map" "$map" >"$work/said" && cp "$folder/burst" "$folder/spoiled" &&
        put "$folder/spoiled" 62172 p && head -c 100000 "$folder/burst" >"$folder/cut" || return 1
    expect 2 "$usage" "$1" &&
        expect 2 "$usage" "$1" "$folder/out" "$map" "$map" "$map" "$map" "$map" "$map" "$map" "$map" "$map" &&
        expect 1 'none: No such file or directory' "$1" "$folder/out" "$map" "$folder/none" &&
        expect 1 'inner: Is a directory' "$1" "$folder/out" "$folder/inner" &&
        expect 1 'none: No such file or directory' "$1" "$folder/none" &&
        expect 1 'none/out: No such file or directory' "$1" "$folder/none/out" "$map" &&
        expect 1 'inner: File exists' "$1" "$folder/inner" "$map" &&
        expect 1 'burst: File exists' "$1" "$folder/burst" "$map" &&
        expect 1 'map: File exists' "$1" "$map" "$map" &&
        expect 1 'small: File exists' "$1" "$folder/small" "$map" "$map" &&
        expect 1 'File too large' limited "$1" "$folder/out" "$map" "$map" &&
        expect 1 'standard output: ' sh -c '"$@" >/dev/full' sh "$1" "$folder/out" "$map" || return 1
    # the refusal, the file or frame at fault, and the program's arguments
    while IFS=: read -r refusal what arguments; do
        # several words
        expect 3 "bundle: $folder/$what: " "$1" $arguments && head -n 1 "$work/said" | grep -qxF "refused $refusal" ||
            { echo "$arguments: not refused $refusal"; return 1; }
    done <<END
5 map 1 place 0:short:$folder/out $folder/short $map
5 map 3 place 0:short:$folder/out $map $folder/small $folder/short
10 map 0 place 2:small:$folder/out $map $folder/small
10 map 0 place 2:map:$folder/out $folder/small $map
14 map 0 place 2:cut:$folder/cut
14 map 0 place 0:map:$map
2 map 2 place 0:spoiled, frame 2:$folder/spoiled
END
    cmp "$map" examples/portrait-160x120.pciv && cmp "$folder/small" examples/map-a.pciv &&
        expect 0 '2 frames of 19200 slots' "$1" "$folder/burst" || return 1
    left=$(cd "$folder" && echo * inner/*)
    [ "$left" = 'burst cut inner map short small spoiled inner/*' ] || { echo "$1: left $left"; return 1; }
}

# bundles_agree MAP..: C and Rust exit alike, say the same and write the same, a refusal included.
bundles_agree() {
    rm -f "$work/bundle.c.out" "$work/bundle.rust.out"
    "$work/bundle" "$work/bundle.c.out" "$@" >"$work/c.txt" 2>&1
    status=$?
    "$programs/examples/bundle" "$work/bundle.rust.out" "$@" >"$work/rust.txt" 2>&1
    [ $? -eq "$status" ] && cmp "$work/c.txt" "$work/rust.txt" || return 1
    case $status in
    0) cmp "$work/bundle.c.out" "$work/bundle.rust.out" ;;
    3) grep -q '^refused ' "$work/c.txt" && [ ! -e "$work/bundle.c.out" ] && [ ! -e "$work/bundle.rust.out" ] ;;
    *) return 1 ;;
    esac
}

# The program that packs maps into a bundle and reads it, in C and in Rust.
bundle_program() {
    gcc -std=c11 -pedantic -Wall -Wextra -Werror -O2 -Iinclude -o "$work/bundle" \
        examples/bundle.c "$PCIV_LIB_DIR/libpciv_c.a" &&
        cargo build --release --offline -p pciv --examples &&
        "$programs/make_report_inputs" "$work/report" || return 1
    for input in "$work"/report/*.pciv; do
        bundles_agree "$input" "$input" && bundles_agree examples/portrait-160x120.pciv "$input" ||
            { echo "$input: C and Rust differ"; return 1; }
    done
    for program in "$work/bundle" "$programs/examples/bundle"; do
        bundle_packs "$program" && bundle_keeps "$program" || return 1
    done
    echo 'C and Rust agree, and README.md has what they print'
}

rust_doc() {
    RUSTDOCFLAGS='-D warnings' cargo doc --offline --no-deps -p pciv && echo 'no warnings'
}

# A map of 1,024 by 768 slots, all of distance 0 but for slot 3.
large_map() {
    printf 'PCIV\0\0\0\0\0\0\014\0\0\0\0\0' && head -c 27 /dev/zero && printf '\007' && head -c 786428 /dev/zero
}

# prints_a PROGRAM: it prints what the program in Rust has to, of map A.
prints_a() {
    "$1" >"$work/said" &&
        printf '%s\n' '4 distances: [0, 254, 255, 300] cm' 'slot 3: 300 cm, in overflow entry 1' | cmp - "$work/said"
}

# A crate outside of the repository, which names rust/pciv as README.md says and has its program.
outside() {
    folder=$(mktemp -d) &&
        ln -s "$PWD" "$folder/pciv" && mkdir -p "$folder/use/src" && block rust 1 >"$folder/use/src/main.rs" &&
        { printf '[package]\nname = "use"\nedition = "2021"\n\n' && block toml 1; } >"$folder/use/Cargo.toml" &&
        cargo build --offline --manifest-path "$folder/use/Cargo.toml" --target-dir "$folder/target" &&
        prints_a "$folder/target/debug/use"
    status=$?
    rm -rf "$folder"
    return $status
}

readme() {
    block c 1 >build/use.c &&
        gcc -std=c11 -Wall -Wextra -Werror -I"$dist/include" -o "$work/readme_c" build/use.c "$dist/lib/libpciv_c.a" &&
        "$work/readme_c" <examples/map-a.pciv | grep -x 'slot 3: 300 cm, in overflow entry 1' &&
        large_map | "$work/readme_c" | grep -x 'slot 3: 7 cm, inline' &&
        head -c 40 examples/map-a.pciv >"$work/short.pciv" &&
        ! "$work/readme_c" <"$work/short.pciv" 2>"$work/readme.txt" &&
        grep -x 'refused 5 place 0: the file is not as long as its header says' "$work/readme.txt" &&
        block sh 1 >"$work/readme.sh" && env -u LD_LIBRARY_PATH sh -e "$work/readme.sh" >"$work/readme.txt" &&
        grep -cx 'slot 3: 300 cm, in overflow entry 1' "$work/readme.txt" | grep -x 3 &&
        outside &&
        block rust 1 >"$work/readme.rs" &&
        rustc --edition 2021 --extern "pciv=$programs/libpciv.rlib" -o "$work/readme_rust" "$work/readme.rs" &&
        prints_a "$work/readme_rust" &&
        echo 'the programs for C and Rust print what they should'
}

interface() {
    "$programs/interface" "$dist/lib/libpciv_c.a" "$dist/lib/libpciv_c.so"
}

# The test vectors: made anew they are the same, and the library gives their answers.
vectors() {
    rm -rf "$work/vectors" &&
        "$programs/make_vectors" "$work/vectors" &&
        diff -r -x README.md tests/vectors "$work/vectors" &&
        "$programs/vectors" tests/vectors
}

report_program() {
    "$programs/make_report_inputs" "$work/report" && sh tests/report.sh "$report" "$work/report"
}

mkdir -p "$work"
part header-c header_c
part header-c++ header_cpp
part c_smoke c_smoke
part cpp_smoke cpp_smoke
part needs archive_needs
part make make_help
part dist dist
part c-shared c_shared
part c++-shared cpp_shared
part cargo-build build
part cargo-test rust_tests
part examples examples
part repair repair_program
part bundle bundle_program
part cargo-doc rust_doc
part readme readme
part interface interface
part kernels "$programs/kernels" "$PCIV_LIB_DIR/libpciv_c.a"
part compare "$programs/compare"
part vectors vectors
part corpus "$programs/corpus" replay tests/fuzz/corpus.txt
part promises sh tests/promises.sh
part report report_program

if [ -n "$failed" ]; then
    echo "failed:$failed"
    exit 1
fi
