#!/usr/bin/env bash
# Builds a C++ program of 32 objects with about 150 MB and one of a single object, links the debugging information of both
# with dsymlink and with dsymutil, each by one thread and by more, in turn, and prints of each the least and the middle of
# wall time, processor time and memory. Also links each four times at once by one thread each: these share nothing, so
# their time says what four processors of the machine are worth. Wants Debian's clang-14, lld-14, llvm-19, libstdc++-12-dev
# and time, a built dsymlink, and a quarter of an hour. What it builds stays in the folder that the first word names, and is
# used again. The second word is the number of runs.
set -eu
dsymlink=$(realpath "$(dirname "$0")/../crates/dsymlink/out/dsymlink")
folder=${1:-/tmp/dsymlink-bench}
runs=${2:-5}
mkdir -p "$folder"
cd "$folder"

headers="algorithm map set unordered_map deque list functional memory vector string sstream iostream numeric"

# One source: each of six types goes through the containers. Every second one also looks for an expression.
source_of() {
    for header in $headers; do echo "#include <$header>"; done
    if [ $(($1 % 2)) = 0 ]; then echo "#include <regex>"; fi
    echo "namespace bench$1 {"
    for t in 0 1 2 3 4 5; do
        echo "struct Type$t { int id; std::string name; double weight; bool operator<(const Type$t& o) const { return id < o.id; } };"
        echo "int use$t(int count) {"
        echo "  std::vector<Type$t> v; std::map<int, Type$t> m; std::set<Type$t> s; std::unordered_map<std::string, Type$t> u;"
        echo "  std::deque<Type$t> d; std::list<Type$t> l; std::vector<std::shared_ptr<Type$t>> p;"
        echo "  std::function<int(const Type$t&)> f = [count](const Type$t& x) { return x.id + count; };"
        echo "  for (int i = 0; i < count; i++) {"
        echo "    Type$t x{i, std::to_string(i), i * 0.5};"
        echo "    v.push_back(x); m[i] = x; s.insert(x); u[x.name] = x; d.push_front(x); l.push_back(x); p.push_back(std::make_shared<Type$t>(x));"
        echo "  }"
        echo "  std::sort(v.begin(), v.end()); std::stable_sort(d.begin(), d.end()); l.sort();"
        echo "  int sum = 0;"
        echo "  for (auto& x : v) sum += f(x); for (auto& x : m) sum += x.second.id; for (auto& x : s) sum += x.id;"
        echo "  for (auto& x : u) sum += x.second.id; for (auto& x : l) sum += x.id; for (auto& x : p) sum += x->id;"
        echo "  std::ostringstream out; out << sum; std::cout << out.str();"
        if [ $(($1 % 2)) = 0 ]; then echo "  std::regex r(\"a[0-9]+b$t\"); std::smatch found; if (std::regex_search(out.str(), r)) sum++;"; fi
        echo "  return sum;"
        echo "}"
    done
    echo "}"
}

# One object, the last six with optimisation.
object_of() {
    [ -e "s$1.o" ] && return
    source_of "$1" > "s$1.cpp"
    clang++-14 --target=x86_64-apple-macosx11 -std=c++14 -gdwarf-4 "-O$(($1 < 26 ? 0 : 2))" -U__nonnull -D_GNU_SOURCE -nostdinc++ \
        -isystem /usr/include/c++/12 -isystem /usr/include/x86_64-linux-gnu/c++/12 \
        -isystem /usr/include/x86_64-linux-gnu -isystem /usr/include -c "s$1.cpp" -o "s$1.o.part"
    mv "s$1.o.part" "s$1.o"
}

# A library of objects, under the name that is its first word.
library_of() {
    local name=$1
    shift
    [ -e "$name" ] || ld64.lld-14 -arch x86_64 -platform_version macos 11.0 11.0 -dylib -undefined dynamic_lookup -o "$name" "$@"
}

objects=""
for n in $(seq 0 31); do
    object_of "$n"
    objects="$objects s$n.o"
done
# shellcheck disable=SC2086
library_of large $objects
library_of small s1.o

# Runs a command, and notes seconds, processor seconds and kilobytes under a name.
note() {
    local name=$1
    shift
    command time -f '%e %U %S %M' -a -o "$name.times" "$@" > "$name.out" 2>&1
}

# Links a program four times at once, each by one thread into a bundle of its own.
four_at_once() {
    local n
    for n in 1 2 3 4; do
        "$dsymlink" -j 1 -o "$1.$n.dSYM" "$1" &
    done
    wait
}
export -f four_at_once
export dsymlink

# The least and the middle of column 1 of what comes in.
least_and_middle() {
    sort -n | awk '{ x[NR] = $1 } END { printf "%9.2f %9.2f", x[1], x[int((NR + 1) / 2)] }'
}

report() {
    printf '%-36s' "$1"
    awk '{ print $1 }' "$1.times" | least_and_middle
    awk '{ print $2 + $3 }' "$1.times" | least_and_middle
    awk '{ print $4 / 1024 }' "$1.times" | least_and_middle
    echo
}

for program in large small; do
    rm -f "$program".*.times
    for _ in $(seq "$runs"); do
        note "$program.dsymlink-no-odr-j1" "$dsymlink" --no-odr -j 1 "$program"
        note "$program.dsymutil-no-odr-one-thread" dsymutil-19 --no-odr --num-threads 1 -o "$program.util.dSYM" "$program"
        note "$program.dsymlink-j1" "$dsymlink" -j 1 "$program"
        note "$program.dsymlink-j4" "$dsymlink" -j 4 "$program"
        note "$program.dsymlink-j1-four-times" bash -c "four_at_once $program"
        note "$program.dsymutil" dsymutil-19 -o "$program.util.dSYM" "$program"
        note "$program.dsymutil-parallel" dsymutil-19 --linker=parallel --num-threads 4 -o "$program.util.dSYM" "$program"
    done
done
echo "objects: $(cat s*.o | wc -c) bytes"
printf '%-36s%19s%19s%19s\n' "least and middle of $runs runs" "seconds" "processor seconds" "MiB"
for program in large small; do
    for tool in dsymlink-no-odr-j1 dsymlink-j1 dsymlink-j4 dsymlink-j1-four-times dsymutil-no-odr-one-thread dsymutil dsymutil-parallel; do
        report "$program.$tool"
    done
done
