#!/usr/bin/env bash
# Times a heap beside Lua 5.1 at 1,000,000 strings of 16 bytes, keys of a table, and fields of small tables, each
# workload's least time of several runs. Fails where the heap takes over twice Lua's time.
#
# Run it on a machine that does nothing else: what is made here is larger than most caches, which other work empties.
#
# usage: bench/heap/run.sh [FOLDER]    FOLDER keeps what was built, for the next run
set -euo pipefail

bench=$(dirname -- "$(readlink -f -- "${BASH_SOURCE[0]}")")
# shellcheck source=bench/lay.sh
source "$bench/../lay.sh"

choose_folder "$@"
command -v lua5.1 >/dev/null || complain 125 "lua5.1, Debian's package of Lua 5.1, isn't on PATH"
lay 'heap_bench: love_base lua_heap lua_value anyhow' love_base lua_value lua_table lua_token lua_tree variant lua_meaning lua_heap
rt run -- 1 1 >"$folder/build.log" 2>&1 || {
    cat "$folder/build.log"
    exit 1
}

paste -d ' ' <(./out/heap_bench 1000000 5) <(lua5.1 "$bench/beside.lua" 1000000 5) | awk '
    $1 != $3 { exit 1 }
    { ratio = $2 / $4; late = ratio > 2; over = over || late }
    { printf "%-13s %9.3f ms, in Lua %9.3f ms: %5.2f times%s\n", $1, $2 / 1e6, $4 / 1e6, ratio, late ? "  FAIL" : "" }
    END { exit over }'
