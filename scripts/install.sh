#!/bin/sh
# Puts the program and all that belongs to it in place, or takes it away.
#
#     scripts/install.sh DESTDIR PREFIX ZSH           as `make install`
#     scripts/install.sh --undo DESTDIR PREFIX ZSH    as `make uninstall`
#
# DESTDIR goes before the others. ZSH is the folder of completions for zsh. The folders that had to
# be made are kept in a list beside the documents. To take all away, each file that this puts in
# place goes, and then each of these folders that is empty.

set -eu
umask 022
cd "$(dirname "$0")/.."
undo=
if [ "$1" = --undo ]; then undo=undo && shift; fi
dest=$1 prefix=$2 zsh=$3
share=$prefix/share
made=$share/doc/cbrowse/folders-made

# The folder of a path, and those above it, as far as they are not there.
folders() {
    folder=${1%/*}
    [ -z "$folder" ] || [ -d "$dest$folder" ] || {
        folders "$folder"
        folder=${1%/*}
        mkdir "$dest$folder"
        printf '%s\n' "$folder" >>"$new"
    }
}

# A file of this mode, from this path, to this path.
put() {
    if [ "$undo" ]; then
        rm -f "$dest$3"
    else
        folders "$3"
        install -m "$1" "$2" "$dest$3"
    fi
}

# A link with this text at this path.
link() {
    if [ "$undo" ]; then
        rm -f "$dest$2"
    else
        folders "$2"
        ln -sfn "$1" "$dest$2"
    fi
}

new=$(mktemp)
tags=$(mktemp)
page=$(mktemp)
trap 'rm -f "$new" "$tags" "$page"' EXIT
if [ -f "$dest$made" ]; then cat "$dest$made" >"$new"; fi
[ -z "$dest" ] || [ "$undo" ] || mkdir -p "$dest"
companions='cbrowse-cscope cbrowse-graph cbrowse-lsp cbrowse-tree'
pack=pack/cbrowse/start/cbrowse
vim=$share/vim/vimfiles/$pack
put 755 bin/cbrowse "$prefix/bin/cbrowse"
for name in $companions; do
    put 755 "editors/$name" "$prefix/lib/cbrowse/$name"
    link "../lib/cbrowse/$name" "$prefix/bin/$name"
done
put 644 editors/shared.sh "$prefix/lib/cbrowse/shared.sh"
for name in cbrowse $companions; do
    put 644 "man/$name.1" "$share/man/man1/$name.1"
    put 644 "editors/completions/$name.fish" "$share/fish/vendor_completions.d/$name.fish"
done
put 644 editors/completions/cbrowse.bash "$share/bash-completion/completions/cbrowse"
for name in $companions; do
    link cbrowse "$share/bash-completion/completions/$name"
done
put 644 editors/completions/_cbrowse "$zsh/_cbrowse"

# The plugin is a package of its own in the runtime path of vim, and by a link in that of nvim.
sed -n 's/.*\*\([^* ]*\)\*$/\1/p; s/^\*\([^* ]*\)\*.*/\1/p' editors/vim/doc/cbrowse.txt | LC_ALL=C sort -u |
    sed 's|.*|&	cbrowse.txt	/*&*|' >"$tags"
put 644 editors/vim/plugin/cbrowse.vim "$vim/plugin/cbrowse.vim"
put 644 editors/vim/doc/cbrowse.txt "$vim/doc/cbrowse.txt"
put 644 "$tags" "$vim/doc/tags"
link ../../../../../vim/vimfiles/$pack "$share/nvim/site/$pack"

# The sources of the crates are not installed, so links to them become plain text.
for path in *.md docs/*.md; do
    sed 's|\[\([^]]*\)\]([./]*crates/[^)]*)|\1|g' "$path" >"$page"
    put 644 "$page" "$share/doc/cbrowse/$path"
done
for path in LICENSE-* docs/pictures/* examples/*; do
    put 644 "$path" "$share/doc/cbrowse/$path"
done

if [ "$undo" ]; then
    rm -f "$dest$made"
    LC_ALL=C sort -r "$new" | while IFS= read -r folder; do
        rmdir "$dest$folder" 2>/dev/null || [ ! -d "$dest$folder" ] || printf '%s is not empty, and stays\n' "$dest$folder"
    done
else
    install -m 644 "$new" "$dest$made"
fi
