#!/usr/bin/env bash
# Links the stored program of examples/many, and has its bundle read by llvm-dwarfdump, which must find no error, and by
# llvm-symbolizer, which must tell for each function what examples/many/lines says. Where one of them is not there, or
# llvm-nm, it says so and tries nothing. The first word is a built dsymlink.
set -u
dsymlink=$(realpath "$1")
for tool in llvm-nm llvm-dwarfdump llvm-symbolizer; do
    command -v "$tool" > /dev/null || { echo "examples: skipped, since $tool is not there"; exit 0; }
done
work=$(mktemp -d)
trap 'rm -rf "$work"' EXIT
cp -R "$(dirname "$0")"/many/. "$work"
cd "$work" || exit 1
"$dsymlink" hello || exit 1
image=hello.dSYM/Contents/Resources/DWARF/hello
llvm-dwarfdump --verify "$image" > verified || { cat verified; exit 1; }
while read -r name place; do
    address=0x$(llvm-nm "$image" | sed -n "s/ T _$name\$//p")
    llvm-symbolizer --obj="$image" "$address" | head -n 2 | paste -sd ' '
done < lines > told
diff lines told || exit 1
echo "examples: read by llvm-dwarfdump and llvm-symbolizer"
