#!/bin/sh
# Holds docs/PROMISES.md to the sources: every must-fail edit, law and file of definitions that it names is there, in the
# crate that it names, and every function of include/pciv.h is named; so are the paths below crates in the other documents.
# Prints a line for each that is not.
set -u

cd "$(dirname "$0")/.." || exit 1
doc=docs/PROMISES.md
count=0
missing=0

# want FOUND WHAT: counts a name; tells of it where it was not found.
want() {
    count=$((count + 1))
    if [ "$1" != yes ]; then
        echo "promises: $2"
        missing=$((missing + 1))
    fi
}

# Edits, as `name` (`crate`).
for pair in $(tr '\n' ' ' <$doc | grep -oE '`[a-z0-9_]+` +\(`pciv_[a-z_]+`\)' | tr -d '`()' | sed 's/ \{1,\}/,/'); do
    edit=${pair%,*}
    crate=${pair#*,}
    [ -f "crates/$crate/must-fail/$edit.edit" ] && found=yes || found=no
    want $found "$crate has no must-fail edit $edit"
done

# Laws, the names with a hyphen inside; a suffix such as `-done` stands for a further law of the name before it.
for law in $(grep -oE '`[A-Za-z][A-Za-z0-9_]*(-[A-Za-z0-9_]+)+`' $doc | tr -d '`' | grep -vx must-fail | sort -u); do
    grep -rqE "^ *(pub )?$law :" crates/*/proofs --include='*.antt' && found=yes || found=no
    want $found "there is no law $law"
done

# All other names of several words: definitions, laws, routines, crates, edits, or functions of C.
cat include/pciv.h $(find crates -path '*/out' -prune -o \( -name '*.antt' -o -name '*.rt' -o -name '*.edit' \) -print) |
    grep -oE '[A-Za-z][A-Za-z0-9_]*_[A-Za-z0-9_]+' | cat - crates.txt | tr -s ' :' '\n' | sort -u >build/words.txt
find crates -name '*.edit' | sed 's/.*\///; s/\.edit$//' | sort -u >>build/words.txt
for name in $(grep -oE '`[a-z][A-Za-z0-9]*(_[A-Za-z0-9]+)+`' $doc | tr -d '`' | sort -u); do
    grep -qxF -e "$name" build/words.txt && found=yes || found=no
    want $found "there is no $name"
done

for file in $(grep -oE '[A-Za-z]+\.antt' $doc | sort -u); do
    [ -n "$(find crates -name "$file")" ] && found=yes || found=no
    want $found "there is no file $file"
done

# Files with their crate, as `crate`, `File.antt`, or as a path.
for pair in $(tr '\n' ' ' <$doc | grep -oE '`pciv_[a-z_]+`, +`[A-Za-z]+\.antt`' | tr -d '` '); do
    crate=${pair%,*}
    file=${pair#*,}
    [ -n "$(find "crates/$crate" -name "$file" 2>/dev/null)" ] && found=yes || found=no
    want $found "$crate has no file $file"
done
for path in $(grep -ohE 'crates/pciv_[A-Za-z0-9_/]+(\.[a-z]+)?' $doc README.md CONTRIBUTING.md docs/DECISIONS.md docs/PROVING.md | sort -u); do
    [ -e "$path" ] && found=yes || found=no
    want $found "there is no $path"
done

for name in $(grep -oE '\bpciv_[a-z_]+\(' include/pciv.h | tr -d '(' | sort -u); do
    grep -q "\`$name\`" $doc && found=yes || found=no
    want $found "$name of include/pciv.h is not there"
done

[ $missing -eq 0 ] && echo "$count names are there"
