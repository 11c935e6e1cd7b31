#!/bin/sh
# Packs what `make install` puts in place.
#
#     scripts/package.sh deb    dist/cbrowse_VERSION_ARCH.deb, a Debian package
#     scripts/package.sh tar    dist/cbrowse-VERSION-SYSTEM.tar.gz, to be unpacked below a prefix,
#                               and dist/cbrowse-VERSION.tar.gz, the sources of the last commit
#
# The version is the one that the program tells, and a program that is not proved is not packed. The
# same files give the same bytes: times are those of the last commit. The maintainer of the Debian
# package is DEBFULLNAME with DEBEMAIL, or the author of that commit.

set -eu
umask 022
cd "$(dirname "$0")/.."
version=$(bin/cbrowse --version 2>&1)
version=${version#cbrowse }
case $version in
*', not proved')
    echo 'bin/cbrowse is not proved, so it is not packed; make proves and builds it' >&2
    exit 1
    ;;
esac
SOURCE_DATE_EPOCH=$(git log -1 --format=%ct)
export SOURCE_DATE_EPOCH
root=$(mktemp -d)
trap 'rm -rf "$root"' EXIT
chmod 755 "$root"
mkdir -p dist

# A tar of a folder of this name below the current one, to standard output.
packed() {
    tar --sort=name --owner=0 --group=0 --numeric-owner --mtime="@$SOURCE_DATE_EPOCH" -cf - "$1" | gzip -9n
}

if [ "$1" = tar ]; then
    name=cbrowse-$version-$(uname -s | tr '[:upper:]' '[:lower:]')-$(uname -m)
    scripts/install.sh "$root" "/$name" "/$name/share/zsh/site-functions"
    rm "$root/$name/share/doc/cbrowse/folders-made"
    (cd "$root" && packed "$name") >"dist/$name.tar.gz"
    git archive --format=tar --prefix="cbrowse-$version/" HEAD | gzip -9n >"dist/cbrowse-$version.tar.gz"
    printf '%s\n' "dist/$name.tar.gz" "dist/cbrowse-$version.tar.gz"
    exit
fi

maintainer="${DEBFULLNAME:-$(git log -1 --format=%an)} <${DEBEMAIL:-$(git log -1 --format=%ae)}>"
arch=$(dpkg --print-architecture)
doc=$root/usr/share/doc/cbrowse
scripts/install.sh "$root" /usr /usr/share/zsh/vendor-completions
strip --strip-unneeded "$root/usr/bin/cbrowse"
gzip -9n "$root"/usr/share/man/man1/*.1

# The licence and the changes have places of their own in a Debian package.
rm "$doc"/LICENSE-* "$doc/folders-made"
{
    printf '%s\n' 'Format: https://www.debian.org/doc/packaging-manuals/copyright-format/1.0/' \
        'Upstream-Name: cbrowse' '' 'Files: *' "Copyright: $(sed -n 's/^Copyright (c) //p' LICENSE-MIT)" \
        'License: Expat or Apache-2.0' '' 'License: Expat'
    sed '1,/^Copyright/d; /./,$!d' LICENSE-MIT | sed 's/^$/./; s/^/ /'
    printf '%s\n' '' 'License: Apache-2.0' ' On Debian systems the text of this licence is in' \
        ' /usr/share/common-licenses/Apache-2.0.'
} | cat -s >"$doc/copyright"
(cd "$doc" && gzip -9n <CHANGELOG.md >changelog.gz && rm CHANGELOG.md)
printf 'cbrowse (%s-1) unstable; urgency=medium\n\n  * This version; changelog.gz says what is new.\n\n -- %s  %s\n' \
    "$version" "$maintainer" "$(LC_ALL=C date -u -R -d "@$SOURCE_DATE_EPOCH")" | gzip -9n >"$doc/changelog.Debian.gz"

# The least C library that has all that the program asks for.
libc=$(objdump -T "$root/usr/bin/cbrowse" | sed -n 's/.*GLIBC_\([0-9.]*\).*/\1/p' | sort -V | tail -n 1)
mkdir "$root/DEBIAN"
cat >"$root/DEBIAN/control" <<END
Package: cbrowse
Version: $version-1
Architecture: $arch
Maintainer: $maintainer
Installed-Size: $(du -sk --exclude=DEBIAN "$root" | cut -f 1)
Depends: libc6 (>= $libc)
Suggests: parallel, graphviz, vim | neovim
Section: devel
Priority: optional
Description: proved source browser for C, with tags files and sessions
 cbrowse writes tags files for editors, answers the questions of cscope's line
 mode, and keeps sessions of files in memory in which every change can be undone
 and redone. It is a language server, too. Each of its functions is proved to
 meet its contract.
 .
 With it come cbrowse-tree for whole trees of sources, cbrowse-graph for
 pictures of who calls whom, cbrowse-lsp for editors that have a client of
 language servers, cbrowse-cscope for editors that ask cscope, and a plugin for
 vim and nvim.
END
(cd "$root" && find usr -type f | LC_ALL=C sort | xargs md5sum) >"$root/DEBIAN/md5sums"
dpkg-deb --root-owner-group --build "$root" "dist/cbrowse_$version-1_$arch.deb" >/dev/null
printf '%s\n' "dist/cbrowse_$version-1_$arch.deb"
