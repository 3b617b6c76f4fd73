#!/bin/sh
# Measures what users of the layer call often, and prints the figures of docs/SPEED.md:
#
#   bench/users.sh [FONT]
#
# Of 10,000 words of eight random letters, and of such with accents, over FONT, DejaVu Sans if it is left out: instructions of
# finding one in a cache that has them all, beside one normalising of it. Of a text of 100,000 letters and spaces, in lines of
# 72: instructions a glyph of cutting it. Instructions are callgrind's, as the difference of three and one times; words and
# lines a second are by processor time. It wants gcc, valgrind and python3, and is run by hand. The crate's library is proved
# and built where it is not yet.
set -eu
here=$(realpath "$(dirname "$0")")
kit=$(dirname "$(dirname "$(realpath "$(command -v rt)")")")
font=${1:-/usr/share/fonts/truetype/dejavu/DejaVuSans.ttf}
work=$(mktemp -d)
trap 'rm -rf "$work"' EXIT
(cd "$here/../crates/bench_runs" && rt lib) >&2
gcc -O2 -g -DNDEBUG -Wall -o "$work/users" "$here/users.c" "$here/../crates/bench_runs/out/libbench_runs.a" \
    "$kit/c/liblibc_c.a" -lm -lpthread
python3 - "$work" <<'P'
import random
import sys

rng = random.Random(1)
for name, letters in {"letters": "abcdefghijklmnopqrstuvwxyz", "accents": "abcdefghijklmnoprstéàüößčřî"}.items():
    words = set()
    while len(words) < 10000:
        words.add("".join(rng.choice(letters) for _ in range(8)))
    with open(f"{sys.argv[1]}/{name}", "w") as file:
        file.write("\n".join(sorted(words, key=lambda _: rng.random())) + "\n")
with open(f"{sys.argv[1]}/text", "w") as file:
    file.write("".join(" " if at % 6 == 5 else rng.choice("abcde") for at in range(100000)))
P

# Instructions of so many times, of words in these functions alone: asking whether the plan fits is left out.
instructions() {
    case $1 in find) inside='*find_word*' ;; normalise) inside='*normalise_word*' ;; *) inside= ;; esac
    valgrind --tool=callgrind --callgrind-out-file=/dev/null ${inside:+--toggle-collect="$inside"} "$work/users" "$1" "$font" "$2" "$3" 2>&1 > /dev/null |
        sed -n 's/.*Collected : //p'
}

# Nanoseconds of so many times.
nanoseconds() {
    "$work/users" "$1" "$font" "$2" "$3" | cut -d ' ' -f 2
}

# What one time of a call costs: instructions of each of so many parts, and how many words or lines there are a second.
measure() {
    parts=$3
    cost=$((($(instructions "$1" "$work/$2" 3) - $(instructions "$1" "$work/$2" 1)) / 2 / parts))
    count=$("$work/users" "$1" "$font" "$work/$2" 1 | cut -d ' ' -f 1)
    time=$((($(nanoseconds "$1" "$work/$2" 30) - $(nanoseconds "$1" "$work/$2" 10)) / 20))
    echo "$1, $2: $cost instructions each, $((count * 1000000000 / time)) a second"
}

for kind in letters accents; do
    measure find $kind 10000
    measure normalise $kind 10000
done
measure cut text 100000
measure cutat text 100000
