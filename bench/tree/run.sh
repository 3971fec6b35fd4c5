#!/usr/bin/env bash
# Times the trees of generated sources of 1, 4 and 16 MiB, and fails where four times the source takes over six times as
# long; then the whole run of the program and of luac5.1 -p over the same files, best of five.
#
# usage: bench/tree/run.sh [FOLDER]    FOLDER keeps what was built, for the next run
set -euo pipefail

bench=$(dirname -- "$(readlink -f -- "${BASH_SOURCE[0]}")")
# shellcheck source=bench/lay.sh
source "$bench/../lay.sh"

# The best of five runs of a command over a file, in microseconds.
best() { # FILE COMMAND..
    local file=$1 best=0 start time i
    shift
    for ((i = 0; i < 5; i++)); do
        start=${EPOCHREALTIME/[.,]/}
        "$@" <"$file" >/dev/null
        time=$((${EPOCHREALTIME/[.,]/} - start))
        ((best != 0 && best <= time)) || best=$time
    done
    echo "$best"
}

choose_folder "$@"
lay 'tree_bench: lua_tree anyhow' love_base lua_value lua_token lua_tree
rt run
command -v luac5.1 >/dev/null || exit 0

# What luac5.1 refuses for a limit of its own has no time beside.
beside() { # FILE
    if luac5.1 -p - <"$1" 2>/dev/null; then best "$1" luac5.1 -p -; else echo -; fi
}

printf '%-20s %10s %10s\n' '16 MiB' 'parse, us' 'luac, us'
names=(mixed list statements elseif keys)
for number in "${!names[@]}"; do
    name=${names[number]}
    out/tree_bench "$number" >"$folder/$name.lua"
    # For luac a chain of so many arms takes time in proportion to its square, before it is refused.
    luac=-
    [[ $name == elseif ]] || luac=$(beside "$folder/$name.lua")
    printf '%-20s %10s %10s\n' "$name" "$(best "$folder/$name.lua" out/tree_bench one)" "$luac"
done

# The stack, in KiB, that sources of any length need: chains and lists are loops, and nesting has a limit.
for name in "${names[@]}"; do
    (
        ulimit -s 256
        out/tree_bench one <"$folder/$name.lua"
    ) || complain 1 "$name needs over 256 KiB of stack"
done
