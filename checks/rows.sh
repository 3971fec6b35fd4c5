# shellcheck shell=bash disable=SC2154
# A row of the end-to-end checks: a command, its status, its whole output and what it says on standard
# error. Read by checks/run, which sets `room`, a folder for its files.

# What the program says on standard error at each status.
declare -A said=(
    [0]=''
    [64]='love_run: usage: love_run FOLDER [--frames N] [--steps N] [--workers N] [--trace]'
    [65]='love_run: no main.lua'
    [66]="love_run: the folder can't be read"
    [67]="love_run: the output can't be written"
    [68]='love_run: the game is too large'
    [69]='love_run: the game waits for a thread'
    [70]='love_run: out of memory'
    [71]=''
    [72]=''
)

passed=0
failed=0
skipped=0

note() { # RESULT NAME [WHY]
    case $1 in
        ok) passed=$((passed + 1)) ;;
        FAILED) failed=$((failed + 1)) ;;
        skipped) skipped=$((skipped + 1)) ;;
    esac
    printf '%-8s %s%s\n' "$1" "$2" "${3:+: $3}"
}

# Sets `ended` to the status of a command, whose streams go to the files out and err.
run() {
    ended=0
    "$@" >"$room/out" 2>"$room/err" </dev/null || ended=$?
}

# Compares the last run with a status and the text wanted on standard error.
ended_so() { # NAME STATUS ERROR-TEXT
    if [[ $ended != "$2" ]]; then
        note FAILED "$1" "status $ended, and not $2"
    elif ! printf '%s' "$3" | cmp -s - "$room/err"; then
        note FAILED "$1" "on standard error: $(head -c 300 "$room/err")"
    else
        return 0
    fi
    return 1
}

# Runs a command that is to end with this status, say this text on standard error, and print this file.
gives() { # NAME STATUS ERROR-TEXT EXPECTED-FILE COMMAND..
    run "${@:5}"
    ended_so "$1" "$2" "$3" || return 0
    if cmp -s "$4" "$room/out"; then
        note ok "$1"
    else
        note FAILED "$1" "standard output isn't $4"
    fi
}

# The same with the program's line for the status.
prints() { # NAME STATUS EXPECTED-FILE COMMAND..
    gives "$1" "$2" "${said[$2]:+${said[$2]}$'\n'}" "${@:3}"
}

# The same where nothing may be printed.
refuses() { # NAME STATUS COMMAND..
    prints "$1" "$2" /dev/null "${@:3}"
}

# Makes the folder NAME, with the text as its main.lua.
game() { # NAME TEXT
    mkdir -p -- "$1"
    printf '%s' "$2" >"$1/main.lua"
}
