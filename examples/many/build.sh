#!/usr/bin/env bash
# Builds the program of this folder anew from its sources, for arm64 macOS and with DWARF 5: two objects, and one in an
# archive; what nothing calls is not linked. Wants Debian's clang-14, lld-14 and llvm-14. What it builds is kept here, so
# that the program can be linked without them.
set -eu
cd "$(dirname "$0")"
for source in main greet square; do
    clang-14 -target arm64-apple-macos11 -g -gdwarf-5 -ffreestanding -fdebug-compilation-dir=. -c "$source.c" -o "$source.o"
done
rm -f libmath.a
llvm-ar-14 rcsD libmath.a square.o
rm square.o
ld64.lld-14 -arch arm64 -platform_version macos 11.0 11.0 -dead_strip -oso_prefix "$PWD/" -e _main -o hello main.o greet.o libmath.a 2> /dev/null
