# Completions of cbrowse-graph for fish.
# Made by scripts/completions.py from what the programs say of their words.
complete -c cbrowse-graph -l callees -d 'what NAME calls, and no callers'
complete -c cbrowse-graph -l callers -d 'what calls NAME, and no callees'
complete -c cbrowse-graph -l depth -x -d 'goes N calls far, 2 by default'
complete -c cbrowse-graph -l nodes -x -d 'shows at most N names, 100 by default, and says how many are cut off'
complete -c cbrowse-graph -l wide -d 'finds by the wide profile, which is the default'
complete -c cbrowse-graph -l standard -d 'finds by the standard profile, as in cbrowse-tree'
complete -c cbrowse-graph -s L -r -d 'takes names from a file too, as in cbrowse-tree'
complete -c cbrowse-graph -l exclude -x -d 'leaves files and folders out, as in cbrowse-tree'
complete -c cbrowse-graph -s j -x -d 'works on N parts at a time, as in cbrowse-tree'
complete -c cbrowse-graph -s R -d 'takes the folders below, as it always does'
complete -c cbrowse-graph -s h -l help -d 'prints these words'
complete -c cbrowse-graph -s V -l version -d 'prints the version of cbrowse'
