#!/bin/sh
# Installs the library for C: PREFIX/include gets its headers, and PREFIX/lib librothelduf_c.a, with the kit's heap in
# it, so that it links alone, librothelduf_c.so, and pkgconfig/rothelduf.pc.
#
# Usage: scripts/c_library.sh PREFIX [TREE]
#
# The archive is crates/rothelduf_c/out/librothelduf_c.a of the tree TREE, by default this one, which `rt lib` proves
# and builds in crates/rothelduf_c. DESTDIR, where it is set, stands before PREFIX.
set -eu

here=$(cd "$(dirname "$0")/.." && pwd)
if [ $# -lt 1 ] || [ $# -gt 2 ] || [ -z "$1" ]; then
    echo "usage: $0 PREFIX [TREE]" >&2
    exit 2
fi
archive=$(realpath "${2:-$here}")/crates/rothelduf_c/out/librothelduf_c.a
prefix=${DESTDIR:+$DESTDIR/}$1
if [ ! -f "$archive" ]; then
    echo "c_library.sh: the library isn't built: (cd crates/rothelduf_c && rt lib)" >&2
    exit 1
fi

# (made under names without spaces, which the archiver's own words can't have)
made=$(mktemp -d)
trap 'rm -rf "$made"' EXIT
trap 'exit 1' INT TERM HUP
ln -s "$archive" "$made/own.a"
ln -s "$(dirname "$(rt doc)")/c/liblibc_c.a" "$made/heap.a"
(cd "$made" && printf '%s\n' 'create librothelduf_c.a' 'addlib own.a' 'addlib heap.a' 'save' 'end' | ar -M)
(cd "$made" && cc -shared -o librothelduf_c.so -Wl,-soname,librothelduf_c.so -Wl,--whole-archive librothelduf_c.a -Wl,--no-whole-archive)
# (for pkg-config a space stands behind a backslash, and for sed what its words mean does, too)
named=$(printf '%s' "$1" | sed 's/[ \\]/\\&/g; s/[\\&|]/\\&/g')
sed "s|@PREFIX@|$named|" "$here/include/rothelduf.pc.in" > "$made/rothelduf.pc"

install -d "$prefix/include" "$prefix/lib/pkgconfig"
install -m 644 "$here/include/rothelduf.h" "$here/include/rothelduf_constants.h" "$prefix/include"
install -m 644 "$made/librothelduf_c.a" "$made/librothelduf_c.so" "$prefix/lib"
install -m 644 "$made/rothelduf.pc" "$prefix/lib/pkgconfig"
