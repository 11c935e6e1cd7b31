# What cbrowse-tree, cbrowse-cscope, cbrowse-graph and cbrowse-lsp share. It stands beside them. Each
# sets `own`, its path without links, and then reads it.

set -f # a name may hold a *
LC_ALL=C
export LC_ALL
self=${own##*/}
cbrowse=${CBROWSE:-cbrowse}
place=${TMPDIR:-/tmp}
feed='
'

# ---- messages

# The words of the script: what stands at its beginning, five columns in.
usage() {
    sed -n 's/^#     //p' "$own"
}

# Standard input in printable ASCII: each other byte, and a backslash, is \xNN. A byte 0 ends a line.
printable() {
    od -An -v -tx1 | awk '
        BEGIN {
            for (i = 32; i < 127; i++) if (i != 92) shown[sprintf("%02x", i)] = sprintf("%c", i)
            shown["00"] = "\n"
        }
        { for (i = 1; i <= NF; i++) printf "%s", ($i in shown) ? shown[$i] : "\\x" $i }'
}

# A message, in one write. Where a line of progress is `shown`, it makes room.
shown=
messages=2
say() {
    printf '%s%s: %s\n' "$shown" "$self" "$(printf %s "$1" | printable)" >&"$messages"
}

# From here on standard error has messages alone, by descriptor 9: what the shell and other programs
# say of a full disk is not shown.
quiet() {
    (: >&2) || exec 2>/dev/null
    exec 9>&2 2>/dev/null
    messages=9
}

fail() {
    say "$2"
    exit "$1"
}

version() {
    said=$("$cbrowse" --version 2>&1) || fail 1 "$cbrowse: no such program"
    printf '%s of %s\n' "$self" "$said"
    exit
}

# ---- names

good_name='^[!-#%-_a-~]*[.][ch]$' # of a file that is taken, and at most 255 bytes

# The C files of this folder and of those below, one a line. These words come first for find(1). For
# a line feed stands a byte that no good name has.
c_files() {
    find . "$@" -type f -name '*.[ch]' -print0 2>/dev/null | tr '\n\0' '\1\n' | sed 's|^\./||'
}

# A text as a word of a shell.
quoted() {
    text=$(printf '%s.' "$1" | sed "s/'/'\\\\''/g")
    printf "'%s'" "${text%.}"
}

# Lines as words for xargs, which would take some of their bytes for quotes.
as_words() {
    sed 's/[^A-Za-z0-9_]/\\&/g'
}

# The same as paths that find(1) takes for no option: they begin with / or a dot.
as_paths() {
    sed 's|^[^/]|./&|' | as_words
}

# ---- files that are made

work=    # a folder of temporary files
made=    # a file that has no name of its own yet
helper=  # a process that ends with the script
running= # one that ends once it is `stopped`, and before its folder goes
out=     # the file to write

clean() {
    trap '' HUP INT TERM USR1
    [ -z "$helper" ] || kill "$helper" 2>/dev/null
    [ -z "$running" ] || { true >"$work/stopped" && wait "$running"; } 2>/dev/null
    rm -rf ${work:+"$work"} ${made:+"$made"}
}
trap clean EXIT
trap '[ -z "$out" ] || say "$aimed: cannot be written: ended by a signal"; exit 1' HUP INT TERM

# Makes the folder of temporary files.
make_work() {
    work=$(mktemp -d "$place/$self.XXXXXX" 2>/dev/null) || fail 1 "$place: no temporary folder can be made"
}

full() {
    fail 1 "$work: cannot be written"
}

# Opens a file without a name, which cannot be left behind: 3 writes it, and 4 reads it.
open_nameless() {
    made=$(mktemp "$place/$self.XXXXXX" 2>/dev/null) || fail 1 "$place: no temporary file can be made"
    exec 3>"$made" 4<"$made" && rm "$made" && made=
}

# Sets the file to write: where a link leads, or this name. Neither may be named like a source. A
# file that is there and not empty has to be of a kind, if `force` is not set: is_own looks at its
# text.
aim() { # NAME KIND OPTION
    aimed=$1 out=$1
    case $out in -*) out=./$out ;; esac
    if [ -h "$out" ] && { [ -f "$out" ] || [ ! -e "$out" ]; }; then
        out=$(readlink -f "$out") || fail 1 "$1: cannot be written"
    fi
    case $1$feed$out in *.[ch] | *.[ch]"$feed"*)
        fail 1 "$1: cannot be written: a name that ends in .c or .h is a source's"
        ;;
    esac
    if [ -d "$out" ] || { [ -e "$out" ] && [ ! -w "$out" ]; }; then fail 1 "$1: cannot be written"; fi
    [ "$force" ] || [ ! -f "$out" ] || [ ! -s "$out" ] || is_own 2>/dev/null <"$out" ||
        fail 1 "$1: cannot be written: it is not a $2 ($3 replaces it)"
}

# Fails where the file to write is one of these words, or of the lines of standard input, under
# whatever name.
spare() {
    [ -e "$out" ] || return 0
    same='for name; do ! [ "$name" -ef "$0" ] || exit 1; done'
    as_paths | xargs sh -c "$same" "$out" && sh -c "$same" "$out" "$@" ||
        fail 1 "$aimed: cannot be written: it is a source or an operand"
}

# Writes what a command prints. A new file takes the name of the old one, and its mode, when it is
# whole; what is not a file, a device say, is written in place.
put() {
    if [ -e "$out" ] && [ ! -f "$out" ]; then
        ("$@") 2>/dev/null >"$out"
    elif (set -C && : >"$out.$$") 2>/dev/null; then # what has that name already is left alone
        made=$out.$$
        mode=$(ls -ld "$out" 2>/dev/null) && chmod "$(printf '%s\n' "$mode" |
            sed 's/^.\(...\)\(...\)\(...\).*/u=\1,g=\2,o=\3/; s/[-STl]//g; q')" "$made" 2>/dev/null
        ("$@") 2>/dev/null >"$made" && mv -f "$made" "$out" 2>/dev/null && made= out=
    else
        false
    fi || fail 1 "$aimed: cannot be written"
}
