#!/bin/sh
# Fetches the C sources that docs/PERFORMANCE.md measures on, and says their digest.
#
#     bench/corpus.sh FOLDER
#
# FOLDER/files gets 4,096 of the .c and .h files of nine source packages of Debian 12, each below
# the name of its package: those that cbrowse takes, without copies of one another, the first by the
# SHA-256 of their contents. What was fetched stays in FOLDER/packages, so a second run fetches
# nothing. Printed are the packages, the number and the bytes of the files, and the SHA-256 of the
# list of their digests and names; it is the same wherever the files are the same.
#
# It needs apt-get, tar and the network. It changes no setting of the system.
set -eu
LC_ALL=C
export LC_ALL
packages='bash coreutils curl git lua5.4 redis sqlite3 tmux vim'
release=bookworm
count=4096

[ $# -eq 1 ] || {
    echo "usage: bench/corpus.sh FOLDER" >&2
    exit 2
}
mkdir -p "$1/packages" "$1/lists/partial"
cd "$1"
folder=$PWD

# ---- the packages

if [ ! -e packages/done ]; then
    echo "deb-src http://deb.debian.org/debian $release main" >sources.list
    set -- -q -o Dir::Etc::sourcelist="$folder/sources.list" -o Dir::Etc::sourceparts=/dev/null \
        -o Dir::State::Lists="$folder/lists"
    apt-get "$@" update
    cd packages
    for package in $packages; do
        apt-get "$@" source --download-only "$package"
    done
    cd ..
    touch packages/done
fi

# ---- their files

rm -rf all files
for archive in packages/*.orig*.tar.*; do
    case $archive in *.asc) continue ;; esac
    name=${archive#packages/}
    echo "$name"
    mkdir -p "all/${name%%_*}"
    tar -xf "$archive" -C "all/${name%%_*}"
done
cd all
find . -type f -name '*.[ch]' -size -1000001c | sed 's/^\.\///' |
    grep -x '[!-~]\{2,255\}' | sort >../names
xargs -d '\n' sha256sum <../names | sort -u -k1,1 | head -n "$count" | sort -k2 >../digests
while read -r _ name; do
    mkdir -p "../files/$(dirname "$name")"
    mv "$name" "../files/$name"
done <../digests
cd ..
rm -rf all names
bytes=$(find files -type f -exec cat {} + | wc -c)
echo "$(wc -l <digests) files, $bytes bytes, list $(sha256sum <digests | cut -d' ' -f1)"
