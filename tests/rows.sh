#!/bin/sh
# Links programs whose answers were worked out by hand, and compares what comes out, byte for byte: types that are merged
# or not, source files of merged types, units of version 5, the generated program of 400 objects, and what is refused first.
#
#   tests/rows.sh PROGRAM
#
# The last line is 'N passed, M failed'.
set -u
command -v python3 > /dev/null || { echo "rows: skipped, since python3 is not there"; exit 0; }
exec python3 -B "$(dirname "$0")/rows.py" "$1"
