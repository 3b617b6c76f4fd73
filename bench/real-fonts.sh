#!/bin/sh
# Measures faces over a font file beside HarfBuzz's and rustybuzz's and prints the tables of real fonts of docs/SPEED.md:
#
#   bench/real-fonts.sh FOLDER [FONT [WORK]]
#
# FOLDER is what sources.sh fetched, FONT is DejaVu Sans if it is left out, WORK keeps what is built, else a folder that is
# removed. The last table is over fonts of other makers, those of makers.py that are installed. It wants gcc, g++, valgrind and python3, and is run by hand. Where FOLDER has no crates of rustybuzz, or there is no
# cargo, its columns are empty. Instructions are counted by callgrind, as the difference of two numbers of times, so they are
# exact. The crate's library is proved and built where it is not yet.
set -e
[ -f "$1/harfbuzz/src/harfbuzz.cc" ] || { echo "usage: $0 FOLDER-OF-SOURCES [FONT [WORK]]" >&2; exit 2; }
source=$(realpath "$1/harfbuzz")
registry=$(realpath "$1")/registry
font=${2:-/usr/share/fonts/truetype/dejavu/DejaVuSans.ttf}
here=$(realpath "$(dirname "$0")")
kit=$(dirname "$(dirname "$(realpath "$(command -v rt)")")")
work=$3
if [ -z "$work" ]; then
    work=$(mktemp -d)
    trap 'rm -rf "$work"' EXIT
fi
mkdir -p "$work"
flags="-O2 -g -DNDEBUG"
[ -f "$work/harfbuzz.o" ] || g++ $flags -fno-exceptions -fno-rtti -c "$source/src/harfbuzz.cc" -o "$work/harfbuzz.o"
rustybuzz=
if [ -d "$registry" ] && command -v cargo > /dev/null; then
    cp -r "$here/rustybuzz" "$work"
    cargo build --quiet --release --offline --manifest-path "$work/rustybuzz/Cargo.toml" \
        --config 'source.crates-io.replace-with="debian"' --config "source.debian.directory=\"$registry\"" >&2
    rustybuzz="-DRUSTYBUZZ $work/rustybuzz/target/release/librustybuzz_runs.a"
fi
(cd "$here/../crates/bench_runs" && rt lib) >&2
gcc $flags -DRUNS -Wall -I"$source/src" -o "$work/faces" "$here/faces.c" "$work/harfbuzz.o" $rustybuzz \
    "$here/../crates/bench_runs/out/libbench_runs.a" "$kit/c/liblibc_c.a" \
    -lstdc++ -lm -lpthread -ldl
"$work/faces" check "$font"
python3 "$here/fonts.py" "$font" "$work/plain.ttf" kern
python3 "$here/fonts.py" "$font" "$work/kern.ttf"
python3 "$here/faces.py" "$work" "$font" "$work/plain.ttf" "$work/kern.ttf"
[ -z "$rustybuzz" ] || python3 "$here/makers.py" "$work"
