# Completions of cbrowse and its companions for bash.
# Made by scripts/completions.py from what the programs say of their words.
_cbrowse() {
    local name=${1##*/} word=$2 before=$3 words= kind=sources at=1
    case "$name ${COMP_WORDS[1]}" in
    "cbrowse line"|"cbrowse find"|"cbrowse tags"|"cbrowse lsp"|"cbrowse help"|"cbrowse-tree find")
        if [ "$COMP_CWORD" -gt 1 ]; then name="$name ${COMP_WORDS[1]}" at=2; fi ;;
    esac
    case "$name $before" in
    "cbrowse line --max-files") kind=none ;;
    "cbrowse line --max-file-bytes") kind=none ;;
    "cbrowse line --files-from") kind=files ;;
    "cbrowse find --max-files") kind=none ;;
    "cbrowse find --max-file-bytes") kind=none ;;
    "cbrowse find --files-from") kind=files ;;
    "cbrowse tags -f") kind=files ;;
    "cbrowse tags --format") words='1 2' ;;
    "cbrowse tags --max-files") kind=none ;;
    "cbrowse tags --max-file-bytes") kind=none ;;
    "cbrowse tags --files-from") kind=files ;;
    "cbrowse lsp --root") kind=folders ;;
    "cbrowse lsp --max-files") kind=none ;;
    "cbrowse lsp --max-file-bytes") kind=none ;;
    "cbrowse lsp --files-from") kind=files ;;
    "cbrowse-tree -f" | "cbrowse-tree -o") kind=files ;;
    "cbrowse-tree --format") words='1 2' ;;
    "cbrowse-tree -L") kind=files ;;
    "cbrowse-tree --questions") kind=files ;;
    "cbrowse-tree --exclude") kind=none ;;
    "cbrowse-tree -j") kind=none ;;
    "cbrowse-tree -S") kind=none ;;
    "cbrowse-tree --sshloginfile") kind=files ;;
    "cbrowse-tree find -f" | "cbrowse-tree find -o") kind=files ;;
    "cbrowse-tree find --format") words='1 2' ;;
    "cbrowse-tree find -L") kind=files ;;
    "cbrowse-tree find --questions") kind=files ;;
    "cbrowse-tree find --exclude") kind=none ;;
    "cbrowse-tree find -j") kind=none ;;
    "cbrowse-tree find -S") kind=none ;;
    "cbrowse-tree find --sshloginfile") kind=files ;;
    "cbrowse-cscope -f") kind=files ;;
    "cbrowse-cscope -i") kind=files ;;
    "cbrowse-cscope -P") kind=folders ;;
    "cbrowse-graph --depth") kind=none ;;
    "cbrowse-graph --nodes") kind=none ;;
    "cbrowse-graph -L") kind=files ;;
    "cbrowse-graph --exclude") kind=none ;;
    "cbrowse-graph -j") kind=none ;;
    "cbrowse-lsp --root") kind=folders ;;
    "cbrowse-lsp --max-files") kind=none ;;
    "cbrowse-lsp --max-file-bytes") kind=none ;;
    *)
        case $name in cbrowse-lsp) kind=none ;; *) kind=sources ;; esac
        case $word in
        -*) case $name in
        'cbrowse') words='-h --help -V --version' ;;
        'cbrowse line') words='--wide --prototypes --max-files --max-file-bytes --files-from -h --help' ;;
        'cbrowse find') words='--wide --prototypes --max-files --max-file-bytes --files-from -h --help' ;;
        'cbrowse tags') words='-x -f --force --format --wide --prototypes --max-files --max-file-bytes --files-from -h --help' ;;
        'cbrowse lsp') words='--root --wide --prototypes --max-files --max-file-bytes --files-from -h --help' ;;
        'cbrowse help') words='' ;;
        'cbrowse-tree') words='-f -o --format -x --wide --standard --prototypes -L --questions --exclude -j -R --all --force --verbose --no-progress -S --sshloginfile --transfer -h --help -V --version' ;;
        'cbrowse-tree find') words='-f -o --format -x --wide --standard --prototypes -L --questions --exclude -j -R --all --force --verbose --no-progress -S --sshloginfile --transfer -h --help -V --version' ;;
        'cbrowse-cscope') words='-b -l -L -f -i -R -d -P -A --wide --standard -W --force -h --help -V --version' ;;
        'cbrowse-graph') words='--callees --callers --depth --nodes --wide --standard -L --exclude -j -R -h --help -V --version' ;;
        'cbrowse-lsp') words='--root --wide --standard --prototypes --max-files --max-file-bytes -R -h --help -V --version' ;;
        esac ;;
        *) if [ "$COMP_CWORD" -eq "$at" ]; then case $name in
        'cbrowse') words='line find tags lsp help' ;;
        'cbrowse find') words='0 1 2 3 4 7 8' ;;
        'cbrowse help') words='line find tags lsp' ;;
        'cbrowse-tree') words='find' ;;
        'cbrowse-tree find') words='0 1 2 3 4 7 8' ;;
        esac; fi ;;
        esac ;;
    esac
    COMPREPLY=()
    if [ -n "$words" ]; then
        mapfile -t COMPREPLY < <(compgen -W "$words" -- "$word")
        case $name in cbrowse-*) ;; *) return ;; esac
        case $word in -*) return ;; esac
    fi
    compopt -o filenames 2>/dev/null
    case $kind in
    files) mapfile -t -O "${#COMPREPLY[@]}" COMPREPLY < <(compgen -f -- "$word") ;;
    folders) mapfile -t -O "${#COMPREPLY[@]}" COMPREPLY < <(compgen -d -- "$word") ;;
    sources) mapfile -t -O "${#COMPREPLY[@]}" COMPREPLY < <(
        compgen -d -- "$word"
        compgen -f -X '!*.[ch]' -- "$word"
    ) ;;
    esac
}
complete -F _cbrowse cbrowse cbrowse-tree cbrowse-cscope cbrowse-graph cbrowse-lsp
