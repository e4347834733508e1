#!/bin/sh
# Links with single requests for memory refused: each of the first 300, and then each at a factor of 1.02.
#
#   tests/memory.sh PROGRAM
#
# The smallest stored program is linked, and a generated one, by one thread. Each answer has to be 7, want of memory, with
# all files as before and nothing told; or that of the link without a refusal, where what was refused could be done
# without. The last line is 'N passed, M failed'.
set -u
tool=$(cd "$(dirname "$1")" && pwd)/$(basename "$1")
here=$(cd "$(dirname "$0")" && pwd)
compiler=$(command -v cc || command -v clang || command -v gcc) || { echo "memory: skipped, since no C compiler is there"; exit 0; }
work=$(mktemp -d)
trap 'rm -rf "$work"' EXIT
"$compiler" -O1 -shared -fPIC -o "$work/refuse.so" "$here/refuse.c" -ldl || exit 1
passed=0
failed=0

# link NUMBER WORD..: the answer with that request refused, in $work/have
link() {
    number=$1
    shift
    rm -rf "$work/have"
    cp -R "$here/bundles/smallest-link/before" "$work/have"
    (cd "$work/have" && exec timeout 20 env LD_PRELOAD="$work/refuse.so" REFUSE="$number" REFUSE_COUNT="$work/count" "$tool" "$@" < /dev/null > "$work/message" 2> "$work/errors")
    status=$?
}

# try WORD..: the link of these words with each of the requests refused
try() {
    link 0 "$@"
    if [ "$status" -ne 0 ]; then
        echo "without a refusal: status $status"
        failed=$((failed + 1))
        return
    fi
    requests=$(cat "$work/count")
    rm -rf "$work/whole" "$work/told"
    mv "$work/have" "$work/whole"
    mv "$work/message" "$work/told"
    number=1
    without=0
    while [ "$number" -le "$requests" ]; do
        link "$number" "$@"
        wrong=
        [ -s "$work/errors" ] && wrong="standard error: $(head -n 1 "$work/errors")"
        case $status in
            0)
                without=$((without + 1))
                cmp -s "$work/message" "$work/told" && diff -rq "$work/have" "$work/whole" > "$work/other" || wrong="Done with another answer"
                ;;
            7)
                [ -s "$work/message" ] && wrong="a message: $(head -n 1 "$work/message")"
                diff -rq "$work/have" "$here/bundles/smallest-link/before" > "$work/other" || wrong=$(head -n 1 "$work/other")
                ;;
            *) wrong="status $status" ;;
        esac
        if [ -n "$wrong" ]; then
            failed=$((failed + 1))
            echo "request $number of $requests refused, '$*': $wrong"
        else
            passed=$((passed + 1))
        fi
        if [ "$number" -lt 300 ]; then number=$((number + 1)); else number=$((number + number / 50)); fi
    done
    echo "'$*': $requests requests for memory, $without of those that were refused could be done without"
}

try -j 1 -o bundle a.out
try -j 1 --statistics --generate 1 g
echo "$passed passed, $failed failed"
[ "$failed" -eq 0 ] && [ "$passed" -gt 0 ]
