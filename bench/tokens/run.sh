#!/usr/bin/env bash
# Times the tokens of generated sources of 1, 4 and 16 MiB and of single tokens of 16 MiB, and fails where four times
# the source takes over six times as long.
#
# usage: bench/tokens/run.sh [FOLDER]    FOLDER keeps what was built, for the next run
set -euo pipefail

bench=$(dirname -- "$(readlink -f -- "${BASH_SOURCE[0]}")")
# shellcheck source=bench/lay.sh
source "$bench/../lay.sh"

choose_folder "$@"
lay 'tokens_bench: lua_token anyhow' love_base lua_value lua_token
rt run
