#!/usr/bin/env bash
# Compares what patterns find with lua5.1's string.find on random pairs of pattern and text, captures too, and then the
# times of three patterns on texts of 1, 4 and 16 MiB.
#
# usage: bench/patterns/run.sh [FOLDER]    FOLDER keeps what was built, for the next run
set -euo pipefail

bench=$(dirname -- "$(readlink -f -- "${BASH_SOURCE[0]}")")
# shellcheck source=bench/lay.sh
source "$bench/../lay.sh"

pairs=4000
seeds=(1 2 3)

choose_folder "$@"
command -v lua5.1 >/dev/null || complain 125 "lua5.1 isn't on PATH"
lay 'patterns_bench: lua_pattern anyhow' love_base lua_pattern
rt run -- time >"$folder/times"
program=$folder/crates/patterns_bench/out/patterns_bench

for seed in "${seeds[@]}"; do
    lua5.1 "$bench/pairs.lua" "$pairs" "$seed" "$folder/pairs" "$folder/wanted"
    "$program" <"$folder/pairs" >"$folder/found"
    paste -d '\n' "$folder/pairs" "$folder/wanted" "$folder/found" |
        awk 'NR % 3 == 1 { pair = $0 } NR % 3 == 2 { want = $0 }
             NR % 3 == 0 && $0 != want { print pair ": " want " wanted, " $0 " found"; wrong = 1 } END { exit wrong }' ||
        complain 1 "the answers differ"
done
echo "no answer differs"

# One after the other in one run, the program's own times first.
"$program" time >"$folder/times"
lua5.1 "$bench/times.lua" >"$folder/times.lua5.1"
paste -d ' ' "$folder/times" "$folder/times.lua5.1" |
    awk '{ if ($4 != $8) { print "other ends:", $0; exit 1 }
           printf "%-14s %2d MiB: %8d us, lua5.1 %8d us, %.2f of its time\n", $1, $2, $3, $7, $3 / $7 }'
