#!/bin/sh
# Links damaged copies of stored programs, and looks at how each link ends.
#
#   tests/damage.sh PROGRAM [COUNT [SEED]]
#
# A damaged copy of a program of tests/bundles has one to three changes in its files: a byte or a word, a cut, stretches
# swapped, repeated or zeroed, most of them in load commands, symbols, abbreviations and the heads of units. Each link has
# to end within 20 seconds and 2 GiB with a status from 0 to 5 that isn't Usage; a refusal leaves all files as they were and
# tells one line, a fault with the kind, the part and the place; and `-j 1` and `-j 4` tell the same and write the same
# bytes. The same SEED damages the same bytes. The last line is 'N passed, M failed'.
set -u
command -v python3 > /dev/null || { echo "damage: skipped, since python3 is not there"; exit 0; }
here=$(dirname "$0")
exec python3 "$here/damage.py" "$1" "$here/bundles" "${2-300}" "${3-1}"
