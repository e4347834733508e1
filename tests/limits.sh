#!/bin/sh
# Links programs that are laid out for it, at the limits of what is read: a thousand open lists and one more, 256 attributes
# and one more, 65,535 objects and one more, files of 2^29 bytes and one more, lengths, versions and relocations that can't
# be, references in circles, and each proper prefix of an object. What comes out must be what the written rules say.
#
#   tests/limits.sh PROGRAM
#
# The last line is 'N passed, M failed'.
set -u
command -v python3 > /dev/null || { echo "limits: skipped, since python3 is not there"; exit 0; }
here=$(dirname "$0")
exec python3 -B "$here/limits.py" "$1" "$here/bundles"
