#!/usr/bin/env bash
# Builds the program of this folder for arm64 macOS and links its debugging information. Wants clang, lld and llvm (Debian),
# and a built dsymlink, which is named by the first word or is that of the checkout.
set -eu
dsymlink=$(realpath "${1:-$(dirname "$0")/../../crates/dsymlink/out/dsymlink}")
cd "$(dirname "$0")"
out=$(mktemp -d)
for source in main area; do
    clang -target arm64-apple-macos11 -g -gdwarf-4 -ffreestanding -c "$source.c" -o "$out/$source.o"
done
ar=$(command -v llvm-ar || command -v llvm-ar-14)
lld=$(command -v ld64.lld || command -v ld64.lld-14)
(cd "$out" && "$ar" rcs libarea.a area.o)
(cd "$out" && "$lld" -arch arm64 -platform_version macos 11.0 11.0 -undefined dynamic_lookup -o shapes main.o libarea.a)
(cd "$out" && "$dsymlink" shapes)
image=$out/shapes.dSYM/Contents/Resources/DWARF/shapes
llvm-dwarfdump --verify "$image"
address=0x$(llvm-nm "$image" | sed -n 's/ T _area$//p')
echo "what stands at $address:"
llvm-symbolizer --obj="$image" "$address"
rm -r "$out"
