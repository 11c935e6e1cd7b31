# Completions of cbrowse-lsp for fish.
# Made by scripts/completions.py from what the programs say of their words.
complete -c cbrowse-lsp -f
complete -c cbrowse-lsp -l root -x -a '(__fish_complete_directories)' -d 'serves this folder, by default the current one'
complete -c cbrowse-lsp -l wide -d 'finds by the wide profile, which is the default'
complete -c cbrowse-lsp -l standard -d 'finds by the standard profile, which finds less than the wide one'
complete -c cbrowse-lsp -l prototypes -d 'finds prototypes and external declarations too; not with --standard'
complete -c cbrowse-lsp -l max-files -x -d 'takes at most N files, 4096 by default'
complete -c cbrowse-lsp -l max-file-bytes -x -d 'takes files of at most N bytes, 1000000 by default'
complete -c cbrowse-lsp -s R -d 'takes the folders below, as it always does'
complete -c cbrowse-lsp -s h -l help -d 'prints these words'
complete -c cbrowse-lsp -s V -l version -d 'prints the version of cbrowse'
