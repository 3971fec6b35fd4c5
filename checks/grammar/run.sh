#!/usr/bin/env bash
# Compares `parse` with luac5.1 over real Lua files, and over so many sources that differ from them in a few tokens.
#
# usage: checks/grammar/run.sh FOLDER COUNT SEED FILE..    FOLDER keeps what was built, for the next run
set -euo pipefail

bench=$(dirname -- "$(readlink -f -- "${BASH_SOURCE[0]}")")
# shellcheck source=bench/lay.sh
source "$bench/../../bench/lay.sh"

(($# > 3)) || complain 64 'usage: checks/grammar/run.sh FOLDER COUNT SEED FILE..'
command -v luac5.1 >/dev/null || complain 125 "luac5.1 isn't on PATH"
count=$2 seed=$3
files=()
for file in "${@:4}"; do
    files+=("$(readlink -f -- "$file")")
done
choose_folder "$1"
lay 'tree_answers: lua_tree anyhow' love_base lua_value lua_token lua_tree
rt run </dev/null >/dev/null
failed=0
"$bench/compare.py" "$PWD/out/tree_answers" luac5.1 "${files[@]}" || failed=1
rm -rf "$folder/mutated"
mkdir "$folder/mutated"
"$bench/mutate.py" "$folder/mutated" "$count" "$seed" "${files[@]}"
"$bench/compare.py" "$PWD/out/tree_answers" luac5.1 "$folder/mutated"/* || failed=1
exit "$failed"
