#!/bin/sh
# Measures the library for C and the program fontshape beside hb-shape over the same font and text, whole programs all:
#
#   bench/c-library.sh [HB_SHAPE [FONT]]
#
# Time for 100,000 lines of 40 characters, each in one run of its program; instructions a line by callgrind, as the
# difference of 2,000 and 1,000 lines; time of a start with one character; sizes of the archive and of the example. Then
# instructions a call for the first line, over a font that is kept, by the library and by HarfBuzz (kept.c), if pkg-config
# finds that. It wants gcc, make, python3, valgrind and hb-shape, and is run by hand.
set -eu
here=$(cd "$(dirname "$0")" && pwd)
hb=${1:-hb-shape-10}
font=${2:-/usr/share/fonts/truetype/dejavu/DejaVuSans.ttf}
bindings=$here/../bindings/c
fontshape=$here/../crates/fontshape/out/fontshape
work=$(mktemp -d)
trap 'rm -rf "$work"' EXIT

make -s -C "$bindings" >&2
python3 - "$work" <<'P'
import random
import sys

rng = random.Random(1)
kinds = {"latin": "abcdefghijklmnopqrstuvwxyz     AVTWfi.,", "hebrew": "אבגדהוזחטיכלמנסעפצקרשת     ", "arabic": "ابتثجحخدذرزسشصضطظعغفقكلمنهوي     "}
for name, letters in kinds.items():
    lines = ["".join(rng.choice(letters) for _ in range(40)) for _ in range(100000)]
    for count in (1, 1000, 2000, 100000):
        with open("%s/%s.%d" % (sys.argv[1], name, count), "w") as file:
            file.write("\n".join(lines[:count]) + "\n")
P

# Seconds of processor time of one run.
seconds() {
    program=$1 text=$2
    bash -c "TIMEFORMAT=%U; time $program > /dev/null" < "$text" 2>&1 | tail -n 1
}

# Instructions of one run.
instructions() {
    valgrind --tool=callgrind --callgrind-out-file=/dev/null $1 < "$2" 2>&1 > /dev/null | sed -n 's/.*Collected : //p' | tail -n 1
}

for kind in latin hebrew arabic; do
    text=$work/$kind
    for name in library fontshape hb-shape; do
        case $name in
            library) run() { echo "$bindings/shape $font"; } ;;
            fontshape) run() { echo "$fontshape --no-glyph-names $font"; } ;;
            *) run() { echo "$hb --no-glyph-names $font"; } ;;
        esac
        one=$(instructions "$(run)" "$text.1000")
        two=$(instructions "$(run)" "$text.2000")
        echo "$kind $name: $(seconds "$(run)" "$text.100000") s for 100,000 lines, $(((two - one) / 1000)) instructions a line," \
            "$(seconds "$(run)" "$text.1") s and $(instructions "$(run)" "$text.1") instructions for one line"
    done
done
size=$(stat -c %s "$here/../crates/luthgarn_c/out/libluthgarn_c.a")
echo "archive $size bytes, library $(stat -c %s "$bindings/libluthgarn.so"), example $(stat -c %s "$bindings/shape")," \
    "fontshape $(stat -c %s "$fontshape")"

pkg-config --exists harfbuzz || exit 0
gcc -O2 -Wall -o "$work/kept" "$here/kept.c" "$bindings/libluthgarn.a" $(pkg-config --cflags --libs harfbuzz)
for kind in latin hebrew arabic; do
    for engine in ours shared opened hb; do
        one=$(instructions "$work/kept $engine $font 10" "$work/$kind.1")
        two=$(instructions "$work/kept $engine $font 20" "$work/$kind.1")
        echo "$kind $engine: $(((two - one) / 10)) instructions a call"
    done
done
