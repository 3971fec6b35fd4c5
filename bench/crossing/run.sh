#!/usr/bin/env bash
# Measures tables of one size and of ten times that packed into messages, and the messages unpacked. Each is to take
# about ten times as long. No ratio is judged.
#
# usage: bench/crossing/run.sh [FOLDER]    FOLDER keeps what was built, for the next run
set -euo pipefail

bench=$(dirname -- "$(readlink -f -- "${BASH_SOURCE[0]}")")
# shellcheck source=bench/lay.sh
source "$bench/../lay.sh"

choose_folder "$@"
lay 'crossing_bench: love_base lua_value lua_heap variant crossing anyhow' \
    love_base lua_value lua_table lua_token lua_tree variant lua_meaning lua_heap crossing
rt run
