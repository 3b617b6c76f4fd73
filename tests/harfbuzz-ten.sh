#!/bin/sh
# Fetches hb-shape of HarfBuzz 10.2.0 from Debian's archive (trixie), with the libraries that it needs:
#
#   tests/harfbuzz-ten.sh FOLDER
#
# puts them into FOLDER, and writes FOLDER/hb-shape, which starts it. It wants apt-get and dpkg, changes no list of the
# system's, and installs nothing. If FOLDER/hb-shape is there, it does nothing.
set -e
[ -n "$1" ] || { echo "usage: $0 FOLDER" >&2; exit 2; }
mkdir -p "$1"
folder=$(realpath "$1")
[ -x "$folder/hb-shape" ] && exit 0
work=$(mktemp -d)
trap 'rm -rf "$work"' EXIT
mkdir -p "$work/lists/partial" "$work/cache/archives/partial" "$work/got"
echo "deb [trusted=yes] http://deb.debian.org/debian trixie main" > "$work/sources"
get() {
    apt-get -qq -o Dir::Etc::SourceList="$work/sources" -o Dir::Etc::SourceParts=/dev/null \
        -o Dir::State::Lists="$work/lists" -o Dir::Cache="$work/cache" -o APT::Sandbox::User=root "$@"
}
cd "$work/got"
get update
get download libharfbuzz-bin libharfbuzz0b libc6 libglib2.0-0t64 libfreetype6 libgraphite2-3 libatomic1 libpcre2-8-0 \
    zlib1g libbz2-1.0 libpng16-16t64 libbrotli1
for package in ./*.deb; do
    dpkg -x "$package" "$folder"
done
libraries="$folder/usr/lib/x86_64-linux-gnu"
cat > "$folder/hb-shape" <<END
#!/bin/sh
exec "$libraries/ld-linux-x86-64.so.2" --library-path "$libraries" "$folder/usr/bin/hb-shape" "\$@"
END
chmod +x "$folder/hb-shape"
