#!/bin/sh
# Says what is missing for a target of the Makefile, a line for each thing. The exit status is 1 if
# anything is missing.
#
#     scripts/needs.sh make     proving and building the program
#     scripts/needs.sh quick    compiling it without proofs
#     scripts/needs.sh test     the gate

set -u
cd "${0%/*}/.." || exit

# The toolchain that cbrowse is proved with, as `rt version` calls it.
logic=dac8208d650f15bf

# Where files are written; then gigabytes that have to be free there, and of memory.
case $1 in
make) name=make work=proving folder=. disk=3 memory=3 ;;
quick) name='make quick' work=compiling folder=${TMPDIR:-/tmp} disk=1 memory=2 ;;
test) name='make test' work=proving folder=. disk=1 memory=2 ;;
esac
status=0

missing() {
    echo "$name: $1" >&2
    status=1
}

# Kilobytes as gigabytes.
gigabytes() {
    echo "$(($1 / 1000000)).$(($1 / 100000 % 10)) GB"
}

if ! command -v python3 >/dev/null; then
    missing 'there is no python3 in PATH, which runs the scripts; Python 3.9 will do'
elif ! version=$(python3 -c 'import sys; print("%d %d" % sys.version_info[:2])' 2>/dev/null); then
    missing 'python3, which runs the scripts, does not start'
elif [ "${version% *}" -lt 3 ] || [ "${version#* }" -lt 9 ]; then
    missing "python3 is Python ${version% *}.${version#* }, and the scripts need 3.9"
fi

if ! command -v rt >/dev/null; then
    missing 'there is no rt in PATH, which proves and compiles; it comes with the Rattle kit'
elif ! toolchain=$(rt version 2>/dev/null); then
    missing 'rt, which proves and compiles, does not start'
elif [ "$toolchain" = "${toolchain%"logic $logic"*}" ]; then
    missing "rt is $toolchain, and cbrowse is proved with logic $logic"
fi

if [ "$1" = test ]; then
    command -v "${CC:-cc}" >/dev/null ||
        missing "there is no ${CC:-cc} in PATH, the C compiler, which builds scripts/growths.c"
    git ls-files >/dev/null 2>&1 ||
        missing 'git does not list the files here, and scripts/documents.py checks those'
fi

free=$(df -Pk "$folder" 2>/dev/null | while read -r _ _ _ kilobytes _; do echo "$kilobytes"; done)
free=${free##*[!0-9]}
if [ "${free:=0}" -lt $((disk * 1000000)) ]; then
    missing "$(gigabytes "$free") of disk are free in $folder, and $work takes $disk GB"
fi

free=0
while read -r field kilobytes _; do
    if [ "$field" = MemAvailable: ]; then free=$kilobytes; fi
done </proc/meminfo
if [ "$free" -lt $((memory * 1000000)) ]; then
    missing "$(gigabytes "$free") of memory are free, and $work takes $memory GB"
fi
exit $status
