#!/bin/bash
# Installs to a folder of its own and builds the example there, in an empty folder, with what is installed alone; compares what it prints with
# examples/c/desugar.out. NETKAT_LIB names an archive to take. Ends with 1 at the first difference.
set -eu
cd "$(dirname "$0")/.."
root=$PWD
tmp=$(mktemp -d)
trap 'rm -rf "$tmp"' EXIT
version=$(sed -n 's/^.define NETKAT_VERSION_[A-Z]* \([0-9]*\)$/\1/p' include/netkat.h | paste -sd . -)

# The flags, as a user gives them.
builds() {
    rm -rf "$tmp/empty"
    mkdir "$tmp/empty"
    cp "$root/examples/c/desugar.c" "$tmp/empty"
    (cd "$tmp/empty" && "${CC:-cc}" -std=c99 -Wall -Wextra -Werror desugar.c "$@" -o desugar && ./desugar > out)
    diff "$root/examples/c/desugar.out" "$tmp/empty/out"
}

make -s install PREFIX="$tmp/prefix" > /dev/null
builds -I"$tmp/prefix/include" -L"$tmp/prefix/lib" -lnetkat
if command -v pkg-config > /dev/null; then
    export PKG_CONFIG_LIBDIR=$tmp/prefix/lib/pkgconfig
    [ "$(pkg-config --modversion netkat)" = "$version" ] || { echo "netkat.pc has another version than the header, $version"; exit 1; }
    builds $(pkg-config --cflags --libs netkat)
else
    echo 'install: no pkg-config here, netkat.pc is not tried'
fi

# DESTDIR: the files lie below it, and do not speak of it.
make -s install DESTDIR="$tmp/stage" PREFIX=/netkat > /dev/null
files='include/netkat.h lib/libnetkat.a lib/pkgconfig/netkat.pc'
for page in FORMAT.md LICENSE NOTICE REFUSALS.md TERMS.md desugar.c; do
    files="$files share/doc/netkat/$page"
done
[ "$(cd "$tmp/stage/netkat" && find * -type f | sort | tr '\n' ' ')" = "$files " ] || { echo 'DESTDIR: other files'; exit 1; }
grep -qx 'prefix=/netkat' "$tmp/stage/netkat/lib/pkgconfig/netkat.pc" || { echo 'DESTDIR: another prefix'; exit 1; }
make -s uninstall DESTDIR="$tmp/stage" PREFIX=/netkat > /dev/null
[ -z "$(find "$tmp/stage" -type f)" ] || { echo 'uninstall left files'; exit 1; }
echo 'install: the example builds with what is installed, and prints what it should'
