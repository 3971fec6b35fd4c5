#!/usr/bin/env bash
# Measures events sent by some threads and polled by another, through an event queue and through a `VecDeque` under a
# `Mutex`, in turn. No ratio of them is judged.
#
# Run it on a machine that does nothing else: threads that wait for a processor hold up the others.
#
# usage: bench/events/run.sh [FOLDER]    FOLDER keeps what was built, for the next run
set -euo pipefail

bench=$(dirname -- "$(readlink -f -- "${BASH_SOURCE[0]}")")
# shellcheck source=bench/lay.sh
source "$bench/../lay.sh"

choose_folder "$@"
lay 'events_bench: love_base variant event_queue' love_base lua_value variant event_queue
rt run
