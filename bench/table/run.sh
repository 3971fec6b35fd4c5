#!/usr/bin/env bash
# Times a table beside Lua 5.1's at 100,000 and at 1,000,000 keys, and slots that are freed and filled again also at 1,000
# and 10,000, each workload's least time of several runs. Fails where a table takes over one and a half times Lua's time, or
# ten times the keys over twelve times as long.
#
# Other work on the machine empties the caches and shares the processors: the load is shown before and after.
#
# usage: bench/table/run.sh [FOLDER]    FOLDER keeps what was built, for the next run
set -euo pipefail

bench=$(dirname -- "$(readlink -f -- "${BASH_SOURCE[0]}")")
# shellcheck source=bench/lay.sh
source "$bench/../lay.sh"

choose_folder "$@"
command -v lua5.1 >/dev/null || complain 125 "lua5.1, Debian's package of Lua 5.1, isn't on PATH"
lay 'table_bench: lua_table anyhow' love_base lua_table
rt run -- 1 1 >"$folder/build.log" 2>&1 || {
    cat "$folder/build.log"
    exit 1
}

# Lines of the count, the workload, the table's time and Lua's.
both() { # COUNT RUNS
    paste -d ' ' <(./out/table_bench "$1" "$2") <(lua5.1 "$bench/beside.lua" "$1" "$2") |
        awk -v count="$1" '$1 != $3 { exit 1 } { print count, $1, $2, $4 }'
}

load() { printf 'load: %s\n' "$(cut -d ' ' -f 1-3 /proc/loadavg)"; }

printf 'machine: %s, %s processors\n' "$(sed -n 's/^model name[^:]*: //p' /proc/cpuinfo | head -n 1)" "$(nproc)"
load
failed=0
{
    both 1000 100 | grep ' refill '
    both 10000 50 | grep ' refill '
    both 100000 10
    both 1000000 5
} | awk '
    { ratio = $3 / $4 }
    { growth = ($2 in before) ? $3 / before[$2] : 0; before[$2] = $3 }
    { late = ratio > 1.5 || growth > 12; over = over || late }
    { printf "%8d %-13s %9.3f ms, in Lua %9.3f ms: %5.2f times%s%s\n", $1, $2, $3 / 1e6, $4 / 1e6, ratio,
        growth ? sprintf(", grown %4.1f times", growth) : "", late ? "  FAIL" : "" }
    END { exit over }' || failed=1
load
exit "$failed"
