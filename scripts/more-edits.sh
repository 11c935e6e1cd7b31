#!/usr/bin/env bash
# Tries the edits that the gate leaves out: the prover has to refuse each file *.edit.md of
# crates/NAME/must-fail/more. (The gate tries every file *.edit below must-fail, so those that it
# leaves out end in .md.)
#
#     scripts/more-edits.sh [CRATE..]      all crates, or the ones named
#
# It works on a copy of the repository, in which these edits take the place of those of the gate.
set -euo pipefail
cd "$(dirname "${BASH_SOURCE[0]}")/.."
crates=("$@")
if [ ${#crates[@]} -eq 0 ]; then
    for folder in crates/*/must-fail/more; do
        folder=${folder#crates/}
        crates+=("${folder%%/*}")
    done
fi
copy=$(mktemp -d)
trap 'rm -rf "$copy"' EXIT
cp -a . "$copy/cbrowse"
cd "$copy/cbrowse"
for crate in "${crates[@]}"; do
    rm -f "crates/$crate"/must-fail/*.edit
    for edit in "crates/$crate"/must-fail/more/*.edit.md; do
        name=${edit##*/}
        mv "$edit" "crates/$crate/must-fail/${name%.md}"
    done
done
rt must-fail "${crates[@]}"
