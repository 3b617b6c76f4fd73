#!/bin/sh
# Measures the library beside HarfBuzz and prints the tables of docs/SPEED.md:
#
#   bench/beside-harfbuzz.sh FOLDER [WORK]
#
# FOLDER is what sources.sh fetched, WORK keeps what is built, else a folder that is removed. It wants
# gcc, g++, valgrind and python3, and is run by hand. Instructions are counted by callgrind, as the difference of two numbers
# of times, so they are exact. The crate's library is proved and built where it is not yet.
set -e
[ -f "$1/harfbuzz/src/harfbuzz.cc" ] || { echo "usage: $0 FOLDER-OF-SOURCES [WORK]" >&2; exit 2; }
source=$(realpath "$1/harfbuzz")
here=$(realpath "$(dirname "$0")")
kit=$(dirname "$(dirname "$(realpath "$(command -v rt)")")")
work=$2
if [ -z "$work" ]; then
    work=$(mktemp -d)
    trap 'rm -rf "$work"' EXIT
fi
mkdir -p "$work"
flags="-O2 -g -DNDEBUG"
[ -f "$work/harfbuzz.o" ] || g++ $flags -fno-exceptions -fno-rtti -c "$source/src/harfbuzz.cc" -o "$work/harfbuzz.o"
g++ $flags -fno-exceptions -fno-rtti -I"$source/src" -c "$here/hidden.cc" -o "$work/hidden.o"
(cd "$here/../crates/bench_runs" && rt lib) >&2
gcc $flags -Wall -I"$source/src" -o "$work/bench" "$here/bench.c" "$work/harfbuzz.o" "$work/hidden.o" \
    "$here/../crates/bench_runs/out/libbench_runs.a" "$kit/c/liblibc_c.a" -lstdc++ -lm -lpthread
gcc -O2 -Wall -shared -fPIC -o "$work/heap.so" "$here/heap.c" -ldl
python3 "$here/tables.py" "$work"
