#!/bin/sh
# Installs this release: the programs, the library, the header, the pages for man, and the rest below share/.
set -eu

usage='usage: [PREFIX=/usr/local] [DESTDIR=FOLDER] ./install.sh

Puts bin, include, lib and share below PREFIX, with DESTDIR before it, and has ldconfig look for the library, unless
DESTDIR is set. The package for Python is in share/saphyr_parser/python, for pip.'

case "$#:${1:-}" in
    0:) ;;
    1:--help | 1:-h)
        echo "$usage"
        exit
        ;;
    *)
        echo "install.sh: can't take these words: $*. ./install.sh --help says which there are" >&2
        exit 2
        ;;
esac
from=$(dirname "$0")
prefix=${PREFIX:-/usr/local}
to=${DESTDIR:-}$prefix
mkdir -p "$to"
for part in bin include lib share; do
    [ ! -d "$from/$part" ] || cp -a --no-preserve=ownership "$from/$part" "$to"
done
share=$to/share/saphyr_parser
cp -a --no-preserve=ownership "$from/PROVENANCE.txt" "$share"
# There the other pages are beside it.
sed 's|](share/saphyr_parser/|](|g' "$from/README.md" >"$share/README.md"
PATH=$PATH:/sbin:/usr/sbin
[ -n "${DESTDIR:-}" ] || ldconfig 2>/dev/null || true
if [ -z "${DESTDIR:-}" ] && ! ldconfig -p 2>/dev/null | grep -qF "$prefix/lib/libsaphyr_parser.so"; then
    echo "install.sh: programs find the library by LD_LIBRARY_PATH=$prefix/lib, or once root's ldconfig looks there;" >&2
    echo "pkg-config finds its file by PKG_CONFIG_PATH=$prefix/lib/pkgconfig" >&2
fi
