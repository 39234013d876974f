#!/bin/sh
# Puts together what a C or C++ program needs (make dist): build/dist/include/pciv.h, and in build/dist/lib the archive,
# a shared library made of it, and a pkg-config file. The folder can be moved as a whole.
# Wants libpciv_c.a in PCIV_LIB_DIR (default crates/pciv_c/out); relative paths start at the repository's root.
set -u

cd "$(dirname "$0")/.." || exit 1
archive=${PCIV_LIB_DIR:-crates/pciv_c/out}/libpciv_c.a
dist=build/dist
lib=$dist/lib

version=$(sed -n 's/^version = "\(.*\)"/\1/p' Cargo.toml)
# a program loads the library that it was built for: one of the same first two numbers
shared=libpciv_c.so.${version%.*}

if [ ! -f "$archive" ]; then
    echo "dist: $archive is missing: build the library first (make dist), or set PCIV_LIB_DIR" >&2
    exit 1
fi

# fail MESSAGE: nothing is left that looks as if it were whole.
fail() {
    rm -rf "$dist"
    echo "dist: $1" >&2
    exit 1
}

rm -rf "$dist"
mkdir -p "$lib/pkgconfig" "$dist/include" || fail "$dist cannot be made"
cp include/pciv.h "$dist/include/" && cp "$archive" "$lib/" || fail "$dist cannot be filled"
sed "s/@version@/$version/" packaging/pciv.pc.in >"$lib/pkgconfig/pciv.pc" || fail "$dist cannot be filled"

# Exports pciv_* alone, binds everything at start, and leaves no symbol open but those of the C library.
gcc -shared -o "$lib/$shared" -Wl,-soname,"$shared" -Wl,--version-script=packaging/pciv.map \
    -Wl,--whole-archive "$archive" -Wl,--no-whole-archive \
    -Wl,-z,defs -Wl,-z,relro -Wl,-z,now -Wl,-z,noexecstack ||
    fail "gcc makes no shared library of $archive"
ln -s "$shared" "$lib/libpciv_c.so" || fail "$dist cannot be filled"
echo "dist: $dist has pciv.h, libpciv_c.a, $shared and pciv.pc, version $version"
