#!/usr/bin/env bash
# Makes a release for users of C, Rust, Python and the programs, who then need neither the kit nor this repository.
# It proves and builds nothing: it takes what `.ci/run` left.
set -euo pipefail

usage='usage: .ci/run && ./release.sh [--out FOLDER]
       PREFIX=/usr/local ./release.sh install

Without `install`, makes saphyr_parser-VERSION-x86_64-linux and its .tar.gz, in out/ or in FOLDER, and a package for
Debian where there is dpkg-deb. With it, installs the same files under PREFIX, with DESTDIR before it, by the install.sh
of the release. The library and the programs are those that `.ci/run` left. Without that gate, `rt lib` in
crates/saphyr_parser_c makes the library, and `rt run` in crates/check_yaml and crates/dump_events the programs; those
that are not built are left out.

SAPHYR_PARSER_LIB   another folder with libsaphyr_parser_c.a and liblibc_c.a
PYTHON              the Python from 3.8 on whose headers the package for Python is compiled with, if not python3. It
                    then serves all of them. Without the headers, Python.h among them, it is left out
REPOSITORY          the address at which this repository is published, as https://HOST/NAME: the page README, the
                    crate'\''s manifest, the file for pkg-config and the pages for man say it. Without it they name none
MAINTAINER          who answers for the package for Debian, as NAME <ADDRESS>
SOURCE_DATE_EPOCH   the time of the files in the .tar.gz; if it is not set, that of the last commit'

# Says what is wrong, and ends.
stop() {
    echo "release.sh: $1" >&2
    exit "${2:-1}"
}

top=$(realpath "$(dirname "$0")")
folder=$top/out
case "$#:${1:-}" in
    0:) ;;
    1:install) folder= ;;
    2:--out) folder=$(realpath -m "${2:?names the folder to write into}") ;;
    1:--help | 1:-h)
        echo "$usage"
        exit
        ;;
    *) stop "can't take these words: $*. ./release.sh --help says which there are" 2 ;;
esac
[ -n "$folder" ] || : "${PREFIX:?names the folder to install into}"
built=$(realpath -m "${SAPHYR_PARSER_LIB:-$top/crates/saphyr_parser_c/out}")
cd "$top"
header=crates/saphyr_parser_c/saphyr_parser.h
version=$(<VERSION)
interface=$(sed -n 's/^#define SAPHYR_VERSION \([0-9]*\)u$/\1/p' "$header")
shared=libsaphyr_parser.so.$interface
calls=$(sed -n 's/^[a-z0-9_]* \(saphyr_[a-z0-9_]*\)(.*);$/\1/p' "$header")
kit=$(readlink -f "$(command -v rt || echo /)" | xargs dirname | xargs dirname)
# The kit's crates whose code is in the library or in the programs.
crates='circular_buffer thiserror ucd_derived unicode_width'
repository=${REPOSITORY:-}
if [ -z "$repository" ]; then
    echo "release.sh: the package names no repository: REPOSITORY=https://HOST/NAME gives its address" >&2
elif [[ ! $repository =~ ^https?://[A-Za-z0-9][A-Za-z0-9._~:/?=@+%-]*$ ]]; then
    stop "REPOSITORY is not an address that begins with http:// or https://: $repository"
fi
maintainer=${MAINTAINER:-nobody <nobody@example.com>}
time=${SOURCE_DATE_EPOCH:-$(git log -1 --format=%ct 2>/dev/null || date +%s)}
beside=share/saphyr_parser/ glibc='' size=''
work=$(mktemp -d)
trap 'rm -rf "$work"' EXIT

# Copies FILE as NAME from the first of the folders that has it.
take() {
    local file=$1 name=$2 folder
    shift 2
    for folder; do
        if [ -f "$folder/$file" ]; then
            cp "$folder/$file" "$work/$name"
            return
        fi
    done
    stop "$file is not in $*: run .ci/run first"
}

# Leaves in $work both forms of the library: an archive with the kit's calls for memory in it, and the shared one,
# which exports only the header's calls.
make_libraries() {
    take libsaphyr_parser_c.a parser.a "$built"
    take liblibc_c.a memory.a "$built" "$kit/c"
    cd "$work"
    printf '%s\n' 'create libsaphyr_parser.a' 'addlib parser.a' 'addlib memory.a' save end | ar -M
    printf '{ global: %s local: *; };\n' "$(printf '%s; ' $calls)" >exported
    "${CC:-cc}" -shared -o "$shared" -Wl,--whole-archive libsaphyr_parser.a -Wl,--no-whole-archive \
        -Wl,--gc-sections,--strip-all,--version-script=exported,-soname="$shared",-z,defs,-z,relro,-z,now
    cd "$top"
}

# Leaves in $work the wheel of the package for Python, which has the library in it.
make_wheel() {
    local python=${PYTHON:-python3} include package=$work/saphyr_parser
    include=$("$python" -c 'import sysconfig; print(sysconfig.get_path("include"))' || true)
    if [ ! -f "$include/Python.h" ]; then
        echo "release.sh: without the package for Python, since $python has no Python.h" >&2
        return
    fi
    install -Dm644 -t "$package" python/saphyr_parser/{__init__.py,_saphyr_parser.pyi,py.typed}
    echo '{ global: PyInit__saphyr_parser; local: *; };' >"$work/exported"
    "${CC:-cc}" -O2 -fPIC -shared -I"$include" -I"$(dirname "$header")" python/saphyr_parser/_saphyr_parser.c \
        "$work/libsaphyr_parser.a" -o "$package/_saphyr_parser.abi3.so" \
        -Wl,--gc-sections,--strip-all,--version-script="$work/exported",-z,relro,-z,now
    "$python" python/make_wheel.py "$package" "$version" "$work" LICENSE-MIT LICENSE-APACHE >/dev/null
}

# Puts FILE of release/ into a folder, and fills in what differs from release to release. A line that would name the
# repository is left out where its address isn't given. From the page README, $beside leads to the other pages.
fill_in() {
    local address=$repository named=d
    # a page for man would print a bare - as another character
    case $1 in *.[0-9]) address=${repository//-/\\\\-} ;; esac
    [ -z "$repository" ] || named="s|@REPOSITORY@|$address|"
    sed "s/@VERSION@/$version/g; s/@INTERFACE@/$interface/g; s/@SHARED@/$shared/g; s|@BESIDE@|$beside|g
        s|@MAINTAINER@|$maintainer|g; s/@DATE@/$(date -Rud "@$time")/; s/@GLIBC@/$glibc/; s/@SIZE@/$size/
        /@REPOSITORY@/$named" "release/$1.in" >"$work/$1"
    install -Dm644 -t "$2" "$work/$1"
}

# Puts pages into a folder, without the parts that are for readers of this repository.
take_pages() {
    local to=$1 page
    shift
    for page; do
        sed '/^<!-- not in a release -->$/,/^<!-- until here -->$/d' "$page" | cat -s >"$work/$(basename "$page")"
        install -Dm644 -t "$to" "$work/$(basename "$page")"
    done
}

# Replaces a page's links to what a release doesn't have by their words.
cut_links() {
    local page target
    for page; do
        { grep -o '](\([^)#]*\)' "$page" || true; } | cut -c3- | sort -u | while read -r target; do
            case $target in '' | http*) continue ;; esac
            [ -e "$(dirname "$page")/$target" ] || sed -i "s|\[\([^]]*\)\]($target[^)]*)|\1|g" "$page"
        done
    done
}

# The library, in each way to link it, and its page for man, by each name.
lay_out_library() {
    local call
    install -Dm644 -t "$1/include" "$header"
    install -Dm644 -t "$1/lib" "$work/libsaphyr_parser.a"
    install -Dm755 -t "$1/lib" "$work/$shared"
    ln -sf "$shared" "$1/lib/libsaphyr_parser.so"
    fill_in saphyr_parser.pc "$1/lib/pkgconfig"
    fill_in saphyr_parser-config.cmake "$1/lib/cmake/saphyr_parser"
    fill_in saphyr_parser-config-version.cmake "$1/lib/cmake/saphyr_parser"
    fill_in saphyr_parser.3 "$1/share/man/man3"
    for call in $calls saphyr_status_text; do
        echo '.so man3/saphyr_parser.3' >"$1/share/man/man3/$call.3"
    done
}

# The licences of the kit's crates.
lay_out_licences() {
    local crate
    for crate in $crates; do
        if ! install -Dm644 -t "$1/$crate" "$kit/rattle/$crate"/LICENSE* 2>/dev/null; then
            echo "release.sh: without the licence of $crate, which the kit has" >&2
        fi
    done
}

# The programs that are built.
lay_out_programs() {
    local name
    for name in check_yaml dump_events; do
        if [ -f "crates/$name/out/$name" ]; then
            install -Dm755 -t "$1/bin" "crates/$name/out/$name"
            fill_in "$name.1" "$1/share/man/man1"
        else
            echo "release.sh: without $name, since crates/$name/out/$name is not built" >&2
        fi
    done
}

# The latest version of glibc that a symbol asks for, of those that `objdump -T` has listed.
latest_glibc() {
    grep -o '(GLIBC_2[.0-9]*)' | tr -dc '0-9.\n' | sort -V | tail -n 1
}

# The oldest glibc with which all programs and libraries below a folder run.
oldest_glibc() {
    find "$1" -type f \( -path '*/bin/*' -o -name '*.so*' \) -exec objdump -T {} + | latest_glibc
}

# Says of what a release is made, so that whoever runs the gate can compare.
tell_provenance() {
    local file commit
    commit=$(git describe --always --abbrev=40 --dirty=', with changes' --exclude '*' 2>/dev/null || echo unknown)
    echo "saphyr_parser $version"
    echo
    echo "commit     $commit"
    echo "toolchain  $(rt version 2>/dev/null || echo unknown)"
    echo "processor  x86-64-v2"
    for file in "lib/$shared" bin/check_yaml bin/dump_events; do
        [ ! -f "$1/$file" ] || echo "glibc      $(objdump -T "$1/$file" | latest_glibc) for $file"
    done
    echo
    echo "SHA-256 of what .ci/run left at that commit, with that toolchain:"
    echo
    (cd "$built" && sha256sum libsaphyr_parser_c.a)
    for file in check_yaml dump_events; do
        [ ! -f "crates/$file/out/$file" ] || (cd "crates/$file/out" && sha256sum "$file")
    done
    echo
    echo "The library and the programs have code of these crates of the toolchain: ${crates// /, }."
    echo "Their licences are in share/saphyr_parser/licences. They also have code of its standard library, for which"
    echo "it states no licence."
}

# Puts all files under a folder.
lay_out() {
    local share=$1/share/saphyr_parser
    lay_out_library "$1"
    lay_out_programs "$1"
    install -Dm644 -t "$share" LICENSE-MIT LICENSE-APACHE
    lay_out_licences "$share/licences"
    [ ! -d "$work/saphyr_parser" ] || install -Dm644 -t "$share/python" "$work"/saphyr_parser-*.whl
    install -Dm644 -t "$share/examples" release/examples/*
    install -Dm644 -t "$share/rust" rust/{Cargo.toml,build.rs,LICENSE-MIT,LICENSE-APACHE}
    [ -z "$repository" ] || sed -i "/^license = /a repository = \"$repository\"" "$share/rust/Cargo.toml"
    find rust/src rust/examples -type f -exec install -Dm644 {} "$share/{}" \;
    glibc=$(oldest_glibc "$1")
    take_pages "$share" CHANGELOG.md
    take_pages "$share/rust" rust/README.md
    take_pages "$share/docs" docs/{CHECK_YAML,CI,COMING_FROM,DEPARTURES,FACES,SPANS,SPEED}.md
    cut_links "$share/CHANGELOG.md" "$share/rust/README.md" "$share"/docs/*.md
    fill_in README.md "$1"
    install -m755 -t "$1" release/install.sh
    tell_provenance "$1" >"$1/PROVENANCE.txt"
    (cd "$1" && find . -type f ! -name SHA256SUMS -printf '%P\n' | LC_ALL=C sort | xargs -d '\n' sha256sum >SHA256SUMS)
}

# Makes of the release in a folder a package for Debian, which has the package for Python installed.
make_package() {
    local root=$work/debian documents=$work/debian/usr/share/doc/saphyr-parser
    local python=$root/usr/lib/python3/dist-packages
    DESTDIR=$root PREFIX=/usr "$1/install.sh"
    rm -rf "$root/usr/share/saphyr_parser/python"
    if [ -d "$work/saphyr_parser" ]; then
        mkdir -p "$python"
        "${PYTHON:-python3}" -m zipfile -e "$work"/saphyr_parser-*.whl "$python"
    fi
    find "$root/usr/share/man" -type f -exec gzip -9n {} +
    fill_in copyright "$documents"
    fill_in changelog "$documents"
    gzip -9n "$documents/changelog"
    # The programs stay as .ci/run left them, so that their sums can be compared.
    install -d "$root/usr/share/lintian/overrides"
    printf 'saphyr-parser: unstripped-binary-or-object [usr/bin/%s]\n' check_yaml dump_events \
        >"$root/usr/share/lintian/overrides/saphyr-parser"
    find "$root/usr/lib" -name '*.so*' -type f -exec chmod 644 {} +
    glibc=$(oldest_glibc "$root/usr")
    size=$(du -ks "$root/usr" | cut -f1)
    fill_in control "$root/DEBIAN"
    echo 'activate-noawait ldconfig' >"$root/DEBIAN/triggers"
    echo "libsaphyr_parser $interface saphyr-parser (>= $version)" >"$root/DEBIAN/shlibs"
    dpkg-deb --root-owner-group -b "$root" "$2" >/dev/null
}

make_libraries
make_wheel
if [ -z "$folder" ]; then
    lay_out "$work/release"
    "$work/release/install.sh"
else
    name=saphyr_parser-$version-x86_64-linux
    rm -rf "${folder:?}/$name"
    lay_out "$folder/$name"
    tar -C "$folder" --sort=name --owner=0 --group=0 --numeric-owner --mtime="@$time" -c "$name" |
        gzip -9n >"$folder/$name.tar.gz"
    echo "$folder/$name.tar.gz"
    if command -v dpkg-deb >/dev/null; then
        make_package "$folder/$name" "$folder/saphyr-parser_${version}_amd64.deb"
        echo "$folder/saphyr-parser_${version}_amd64.deb"
    fi
fi
