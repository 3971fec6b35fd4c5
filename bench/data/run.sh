#!/usr/bin/env bash
# Digests and texts beside the system's own tools: first whether they agree on files round the lengths at which a
# digest begins another block, then the best time of five runs over 16 MiB, each beside the tool's in the same turn.
#
# usage: bench/data/run.sh [FOLDER]    FOLDER keeps what was built, for the next run
set -euo pipefail

bench=$(dirname -- "$(readlink -f -- "${BASH_SOURCE[0]}")")
# shellcheck source=bench/lay.sh
source "$bench/../lay.sh"

choose_folder "$@"
lay 'data_bench: love_base love_data anyhow' love_base love_data
printf '%s\n' md5 data/abc >args
mkdir -p data
printf abc >data/abc
rt run -- md5 "$PWD/data/abc" >built.log 2>&1 || { cat built.log; complain 1 'the program is not built'; }
program=$PWD/out/data_bench
room=$(mktemp -d "$folder/room.XXXXXX")

tool() { # KIND FILE
    case $1 in
        base64) base64 -w 0 "$2" ;;
        hex) basenc --base16 -w 0 "$2" | tr A-F a-f ;;
        base64-back) base64 -d "$2" ;;
        hex-back) tr a-f A-F <"$2" | basenc --base16 -d ;;
        *) "${1}sum" "$2" | cut -d ' ' -f 1 | tr -d '\n' ;;
    esac
}

kinds=(md5 sha1 sha224 sha256 sha384 sha512 base64 hex)
wrong=0
compared=0
agree() { # KIND FILE
    compared=$((compared + 1))
    if ! cmp -s <("$program" "$1" "$2") <(tool "$1" "$2"); then
        echo "differs: $1 of $(wc -c <"$2") bytes"
        wrong=$((wrong + 1))
    fi
}
for length in 0 1 2 3 54 55 56 57 63 64 65 110 111 112 113 119 120 127 128 129 1000 65535 65536 65537; do
    head -c "$length" /dev/urandom >"$room/file"
    for kind in "${kinds[@]}"; do agree "$kind" "$room/file"; done
    for kind in base64 hex; do
        tool "$kind" "$room/file" >"$room/text"
        agree "$kind-back" "$room/text"
    done
done
echo "$compared compared, $wrong differ"

best() { # CMD..: microseconds, the best of five
    local best=0 start time i
    for i in 1 2 3 4 5; do
        start=${EPOCHREALTIME/[.,]/}
        "$@" >/dev/null
        time=$((${EPOCHREALTIME/[.,]/} - start))
        ((i > 1 && best <= time)) || best=$time
    done
    echo "$best"
}
head -c 16777216 /dev/urandom >"$room/large"
for kind in base64 hex; do tool "$kind" "$room/large" >"$room/large.$kind"; done
printf '%-12s %9s %9s %6s\n' '16 MiB' 'us' 'tool us' ratio
for kind in "${kinds[@]}" base64-back hex-back; do
    file=$room/large
    case $kind in *-back) file=$room/large.${kind%-back} ;; esac
    ours=$(best "$program" "$kind" "$file")
    theirs=$(best tool "$kind" "$file")
    printf '%-12s %9s %9s %6s\n' "$kind" "$ours" "$theirs" "$(awk -v a="$ours" -v b="$theirs" 'BEGIN { printf "%.2f", a / b }')"
done
rm -rf -- "$room"
exit "$((wrong > 0))"
