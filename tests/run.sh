#!/bin/sh
# Links the stored programs of tests/bundles with a built dsymlink and compares what comes out, byte for byte.
#
#   tests/run.sh PROGRAM [CASE]
#
# A case is a folder: `words`, one a line; the files of `before`; the `status` and the `message` that are wanted; and in
# `after` the files that are new or changed then. All others must be as they were, and nothing may come out on standard
# error. Where no `message` is wanted, standard output is a device that is full; so is the file that `full` names; and
# where there is a `limit`, no file may get longer than so many bytes. The answers were computed from the written rules by
# other means than this program. The last line is 'N passed, M failed'.
set -u
tool=$(cd "$(dirname "$1")" && pwd)/$(basename "$1")
cases=$(cd "$(dirname "$0")/bundles" && pwd)
work=$(mktemp -d)
trap 'rm -rf "$work"' EXIT
passed=0
failed=0

# is_full FILE: makes the file a device that is full
is_full() {
    mkdir -p "$(dirname "$1")"
    ln -s /dev/full "$1"
}

# run CASE: the program's answer on a copy of the case's files, in $work
run() {
    rm -rf "$work/have" "$work/want"
    mkdir -p "$work/have" "$work/want"
    cp -R "$1/before/." "$work/have"
    cp -R "$1/before/." "$work/want"
    if [ -d "$1/after" ]; then cp -R "$1/after/." "$work/want"; fi
    if [ -f "$1/full" ]; then for side in have want; do is_full "$work/$side/$(cat "$1/full")"; done; fi
    set --
    while IFS= read -r word; do set -- "$@" "$word"; done < "$case/words"
    if [ -f "$case/message" ]; then message=$work/message; else message=/dev/full; fi
    if [ -f "$case/limit" ]; then set -- prlimit "--fsize=$(cat "$case/limit")" "$tool" "$@"; else set -- "$tool" "$@"; fi
    (trap '' XFSZ && cd "$work/have" && exec "$@" < /dev/null > "$message" 2> "$work/errors")
    echo $? > "$work/status"
}

for case in "$cases"/*/words; do
    case=${case%/words}
    name=$(basename "$case")
    if [ $# -gt 1 ] && [ "$2" != "$name" ]; then continue; fi
    run "$case"
    wrong=
    cmp -s "$work/status" "$case/status" || wrong="$wrong; status $(cat "$work/status"), not $(cat "$case/status")"
    if [ -f "$case/message" ]; then
        cmp -s "$work/message" "$case/message" || wrong="$wrong; another message: $(head -n 1 "$work/message")"
    fi
    [ -s "$work/errors" ] && wrong="$wrong; standard error: $(head -n 1 "$work/errors")"
    files=$(diff -rq --no-dereference "$work/want" "$work/have") || wrong="$wrong; $files"
    if [ -n "$wrong" ]; then
        failed=$((failed + 1))
        echo "$name: ${wrong#; }"
    else
        passed=$((passed + 1))
    fi
done
echo "$passed passed, $failed failed"
[ "$failed" -eq 0 ] && [ "$passed" -gt 0 ]
