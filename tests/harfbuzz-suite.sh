#!/bin/sh
# Fetches the tests of shaping of HarfBuzz 10.2.0 from Debian's source package (trixie):
#
#   tests/harfbuzz-suite.sh FOLDER
#
# puts what stands in its folder test/shape/data into FOLDER. It wants apt-get and tar, changes no list of the system's,
# and installs nothing.
set -e
[ -n "$1" ] || { echo "usage: $0 FOLDER" >&2; exit 2; }
mkdir -p "$1"
folder=$(realpath "$1")
work=$(mktemp -d)
trap 'rm -rf "$work"' EXIT
mkdir -p "$work/lists/partial" "$work/cache/archives/partial" "$work/got"
echo "deb-src [trusted=yes] http://deb.debian.org/debian trixie main" > "$work/sources"
get() {
    apt-get -qq -o Dir::Etc::SourceList="$work/sources" -o Dir::Etc::SourceParts=/dev/null \
        -o Dir::State::Lists="$work/lists" -o Dir::Cache="$work/cache" -o APT::Sandbox::User=root "$@"
}
cd "$work/got"
get update
get source --download-only harfbuzz
tar xf harfbuzz_10.2.0.orig.tar.* --strip-components=4 -C "$folder" --wildcards '*/test/shape/data'
