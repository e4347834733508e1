#!/usr/bin/env bash
# Builds programs of two real C++ projects of Debian 12, RocksDB (300 sources) and Protocol Buffers (140), links the debugging
# information of each with dsymlink and with dsymutil, in turn, and prints of each how many objects it has, how large they
# are, and the least and the middle of wall time, processor time and memory. RocksDB is built without optimisation (arm64) and
# with (x86_64, an archive linked with dead code stripped), Protocol Buffers too, and in DWARF 5 beside. The programs are
# Mach-O, but no part of Apple's SDK is needed: headers are those of libc++ and musl, seen through Apple's target.
#
#   bench/real.sh [FOLDER [RUNS]]
#
# What it needs: clang-19 llvm-19 lld-19 libc++-19-dev libc++abi-19-dev musl-dev dpkg-dev time, sources by
# `apt-get source` (the deb-src lines on), a built dsymlink, 3 GB of disk, and nothing else running while it measures. The
# first run compiles 1,000 sources, which takes an hour or so on four processors. What it made stays in the folder (by default
# /tmp/dsymlink-real) and is used again, so a later run takes some minutes. With OBJECTS=N it takes N sources of each
# project alone, to try it. Where the packages are unpacked elsewhere, TOOLS names the folder that stands for /; DSYMLINK
# names another dsymlink.
set -eu
here=$(realpath "$(dirname "$0")")
dsymlink=${DSYMLINK:-$here/../crates/dsymlink/out/dsymlink}
[ -x "$dsymlink" ] || { echo "$0: no program at $dsymlink" >&2; exit 1; }
folder=${1:-/tmp/dsymlink-real}
runs=${2:-5}
few=${OBJECTS:-100000}
tools=${TOOLS:-}
jobs=$(nproc)
mkdir -p "$folder"
cd "$folder"

llvm=$tools/usr/lib/llvm-19
headers="-nostdinc -nostdinc++ -isystem $llvm/include/c++/v1 -isystem $("$llvm/bin/clang" -print-resource-dir)/include -isystem $tools/usr/include/x86_64-linux-musl"
# The projects take their ways for Linux, and libc++ its ways for musl.
as_linux="-U__APPLE__ -U__MACH__ -UTARGET_OS_MAC -D__ELF__=1 -D__linux__=1 -D__gnu_linux__=1 -D__unix__=1 -D_GNU_SOURCE -D_LIBCPP_HAS_MUSL_LIBC"

# The sources of a project: fetched and unpacked once.
source_of() {
    [ -d "$1" ] && return
    ls "$1"_*.dsc > /dev/null 2>&1 || apt-get source --download-only "$1"
    mkdir "$1.part"
    tar -x -f "$1"_*.orig.tar.* -C "$1.part" --strip-components 1
    # Sections by names that Mach-O does not have.
    if [ -e "$1.part/src/google/protobuf/port_def.inc" ]; then
        sed -i 's/__attribute__((section(#x)))//' "$1.part/src/google/protobuf/port_def.inc"
    fi
    mv "$1.part" "$1"
}

# The sources of RocksDB's library, by its own list, and of the library of Protocol Buffers with its compiler.
files_of_rocksdb() {
    sed -n '/^LIB_SOURCES =/,/^$/p' rocksdb/src.mk | grep -o '[a-z][^ ]*\.cc' | sed 's|^|rocksdb/|'
}
files_of_protobuf() {
    find protobuf/src/google/protobuf -name '*.cc' \
        | grep -v -e test -e mock -e '/testing/' -e '/util/internal/mock' -e 'compiler/main.cc' | sort
}
flags_of_rocksdb="-I rocksdb -I rocksdb/include -DROCKSDB_PLATFORM_POSIX -DROCKSDB_LIB_IO_POSIX -DOS_LINUX -DROCKSDB_NO_FBCODE"
flags_of_protobuf="-I protobuf/src -DHAVE_PTHREAD"

# One object in a folder. What does not compile with these headers is left out, and what the compiler says is kept.
object_of() {
    local out
    out=$1/$(echo "${2%.cc}" | tr / _).o
    if [ -e "$out" ] || [ -e "$out.left" ]; then return; fi
    # shellcheck disable=SC2086
    if "$llvm/bin/clang++" $flags $as_linux $headers -std=c++17 -w -fno-limit-debug-info -c "$2" -o "$out.part" 2> "$out.log"; then
        mv "$out.part" "$out"
        rm "$out.log"
    else
        mv "$out.log" "$out.left"
    fi
}
export -f object_of
export llvm headers as_linux flags

# The objects of a project in a folder, with these flags.
objects_of() {
    local name=$1 project=$2 own="flags_of_$2"
    shift 2
    flags="${!own} $*"
    mkdir -p "$name"
    "files_of_$project" | sed -n "1,${few}p" | xargs -P "$jobs" -I '{}' bash -c 'object_of "$1" "$2"' object_of "$name" '{}'
}

# A program of the objects under a name: of these themselves, or of an archive with all its members.
program_of() {
    local name=$1 arch=$2
    [ -e "$name.dylib" ] && return
    if [ "${3:-}" = stripped ]; then
        "$llvm/bin/llvm-ar" --format=darwin rcs "$name.a" "$name"/*.o
        "$llvm/bin/ld64.lld" -arch "$arch" -platform_version macos 11.0 11.0 -dylib -undefined dynamic_lookup -dead_strip -all_load -o "$name.dylib" "$name.a"
    else
        "$llvm/bin/ld64.lld" -arch "$arch" -platform_version macos 11.0 11.0 -dylib -undefined dynamic_lookup -o "$name.dylib" "$name"/*.o
    fi
}

source_of rocksdb
source_of protobuf
objects_of rocksdb-O0 rocksdb -target arm64-apple-macos11 -O0 -gdwarf-4
objects_of rocksdb-O2 rocksdb -target x86_64-apple-macos11 -O2 -gdwarf-4
objects_of protobuf-O0 protobuf -target arm64-apple-macos11 -O0 -gdwarf-4
objects_of protobuf-O2 protobuf -target x86_64-apple-macos11 -O2 -gdwarf-4
objects_of protobuf-O2-5 protobuf -target x86_64-apple-macos11 -O2 -gdwarf-5
program_of rocksdb-O0 arm64
program_of rocksdb-O2 x86_64 stripped
program_of protobuf-O0 arm64
program_of protobuf-O2 x86_64 stripped
program_of protobuf-O2-5 x86_64 stripped

# Runs a command, and notes seconds, processor seconds and kilobytes under a name.
note() {
    local name=$1
    shift
    command time -f '%e %U %S %M' -a -o "$name.times" "$@" > "$name.out" 2>&1
}

# The least and the middle of column 1 of what comes in.
least_and_middle() {
    sort -n | awk '{ x[NR] = $1 } END { printf "%9.2f %9.2f", x[1], x[int((NR + 1) / 2)] }'
}

report() {
    printf '%-36s' "$1"
    awk '{ print $1 }' "$1.times" | least_and_middle
    awk '{ print $2 + $3 }' "$1.times" | least_and_middle
    awk '{ print $4 / 1024 }' "$1.times" | least_and_middle
    echo
}

programs="rocksdb-O0 rocksdb-O2 protobuf-O0 protobuf-O2 protobuf-O2-5"
for program in $programs; do
    rm -f "$program".*.times
    for _ in $(seq "$runs"); do
        note "$program.dsymlink-j1" "$dsymlink" -j 1 "$program.dylib"
        note "$program.dsymlink-j4" "$dsymlink" -j 4 "$program.dylib"
        note "$program.dsymutil" "$llvm/bin/dsymutil" -o "$program.util.dSYM" "$program.dylib"
        note "$program.dsymutil-parallel" "$llvm/bin/dsymutil" --linker=parallel --num-threads 4 -o "$program.util.dSYM" "$program.dylib"
    done
done
printf '%-36s%19s%19s%19s\n' "least and middle of $runs runs" "seconds" "processor seconds" "MiB"
for program in $programs; do
    echo "$program: $(find "$program" -name '*.o' | wc -l) objects, $(cat "$program"/*.o | wc -c) bytes, left out $(find "$program" -name '*.left' | wc -l)"
    for tool in dsymlink-j1 dsymlink-j4 dsymutil dsymutil-parallel; do
        report "$program.$tool"
    done
done
