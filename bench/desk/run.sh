#!/usr/bin/env bash
# Measures turns at a desk, beside a `Mutex`, and what a turn costs behind a long history. No ratio of them is judged.
#
# Run it on a machine that does nothing else: threads that wait for a processor wait with the object that they hold.
#
# usage: bench/desk/run.sh [FOLDER]    FOLDER keeps what was built, for the next run
set -euo pipefail

bench=$(dirname -- "$(readlink -f -- "${BASH_SOURCE[0]}")")
# shellcheck source=bench/lay.sh
source "$bench/../lay.sh"

choose_folder "$@"
lay 'desk_bench: love_base turn_desk' love_base turn_desk
rt run
