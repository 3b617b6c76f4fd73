#!/bin/sh
# Fetches what the library is measured beside, from Debian's archive:
#
#   bench/sources.sh FOLDER
#
# puts HarfBuzz 10.2.0 (trixie) into FOLDER/harfbuzz, and rustybuzz 0.18 with the crates that it needs (sid) into
# FOLDER/registry. It wants apt-get, dpkg and tar, changes no list of the system's, and installs nothing.
set -e
[ -n "$1" ] || { echo "usage: $0 FOLDER" >&2; exit 2; }
mkdir -p "$1"
folder=$(realpath "$1")
work=$(mktemp -d)
trap 'rm -rf "$work"' EXIT
mkdir -p "$work/lists/partial" "$work/cache/archives/partial" "$work/got"
cat > "$work/sources" <<END
deb-src [trusted=yes] http://deb.debian.org/debian trixie main
deb [trusted=yes] http://deb.debian.org/debian sid main
END
get() {
    apt-get -qq -o Dir::Etc::SourceList="$work/sources" -o Dir::Etc::SourceParts=/dev/null \
        -o Dir::State::Lists="$work/lists" -o Dir::Cache="$work/cache" -o APT::Sandbox::User=root "$@"
}
cd "$work/got"
get update
get source --download-only harfbuzz
mkdir -p "$folder/harfbuzz"
tar xf harfbuzz_*.orig.tar.* --strip-components=1 -C "$folder/harfbuzz"
for crate in rustybuzz ttf-parser bytemuck smallvec log bitflags core-maths libm unicode-bidi-mirroring unicode-ccc \
    unicode-properties unicode-script; do
    get download "librust-$crate-dev"
done
for package in ./*.deb; do
    dpkg -x "$package" "$work/crates"
done
rm -rf "$folder/registry"
cp -r "$work/crates/usr/share/cargo/registry" "$folder/registry"
ls "$folder" "$folder/registry"
