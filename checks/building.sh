# shellcheck shell=bash disable=SC2154
# How bin/love_run builds, tried in a repository that is made up, by a toolchain that only counts its calls.
# Read by checks/run.

# A repository whose crates are empty, and a command rt that writes down its calls.
make_mock() {
    local tool
    mkdir -p mock/bin mock/tools mock/crates/{low,love_run,other}/src mock/crates/love_run/{specs,proofs,data/game}
    cp "$top/bin/love_run" mock/bin/
    printf '# a comment: of this\nlow:\nother: low\n \tlove_run opt_level=2 : itoa, low,thiserror # and more\n' >mock/crates.txt
    touch mock/crates/{low,other}/src/lib.rt mock/crates/love_run/{src/main.rt,specs/Lib.antt,proofs/Lib.antt}
    cat >mock/tools/rt <<'RT'
#!/bin/sh
# Stands in for the toolchain: `rt run` in the crate makes a program that tells its words.
echo "$PWD: $*" >>../../calls
echo 'what rt has to say'
test -z "${RT_BACKEND-}" || exit 2
! test -e ../../broken || exit 1
! test -e ../../idle || exit 0
sleep 0.2
printf '#!/bin/sh\necho "$#: $*"\nexit 7\n' >out/love_run
chmod +x out/love_run
RT
    chmod +x mock/tools/rt
    # What the script needs besides flock, to look whether the program is up to date.
    mkdir mock/few
    for tool in bash dirname find mkdir readlink sed; do
        ln -s "$(command -v "$tool")" mock/few/
    done
}

# Runs the script of that repository with the tools in `path`. It is to build so often and to end with this status.
mock() { # NAME BUILDS STATUS OUTPUT ERROR-PATTERN
    local builds
    : >mock/calls
    run env RT_BACKEND=both "PATH=$path" "$room/mock/bin/love_run" a 'b c' --
    builds=$(wc -l <mock/calls)
    # shellcheck disable=SC2053 # the last is a pattern
    if [[ $ended == "$3" && $builds == "$2" && $(cat "$room/out") == "$4" && $(cat "$room/err") == $5 ]]; then
        note ok "bin/love_run, $1"
    else
        note FAILED "bin/love_run, $1" "status $ended, $builds builds, $(cat "$room/out" "$room/err")"
    fi
}

check_building() {
    local built='bin/love_run: proving and building the program: *' told='3: a b c --' broke
    local path=$room/mock/tools:/usr/bin:/bin source
    local log=$room/mock/crates/love_run/out/build.log lock=$room/mock/crates/love_run/out/build.lock
    local cannot="bin/love_run: the program isn't up to date, and can't be built:"
    make_mock
    broke="*"$'\n'"bin/love_run: the program wasn't built: $log says why"
    mock 'which builds where there is no program' 1 7 "$told" "$built"
    mock 'which builds only once' 0 7 "$told" ''
    touch mock/crates/other/src/lib.rt
    mock 'where a crate changed that it has no part of' 0 7 "$told" ''
    for source in low/src/lib.rt love_run/src/main.rt love_run/specs/Lib.antt love_run/proofs/Lib.antt ../crates.txt; do
        sleep 0.02
        touch "mock/crates/$source"
        mock "which builds after a change of $source" 1 7 "$told" "$built"
    done
    # The last line, that of love_run, is read also where no newline ends it.
    sleep 0.02
    truncate -s -1 mock/crates.txt
    mock 'which builds after a change of the end of crates.txt' 1 7 "$told" "$built"
    sleep 0.02
    touch mock/crates/low/src/lib.rt
    mock 'which builds where no newline ends crates.txt' 1 7 "$told" "$built"
    sleep 0.02
    rm mock/crates/love_run/specs/Lib.antt
    mock 'which builds where a source was removed' 1 7 "$told" "$built"
    mv mock/crates.txt mock/crates
    mock 'which builds where crates.txt is gone' 1 7 "$told" "$built"
    mv mock/crates/crates.txt mock
    mock 'which builds nothing once it is there again' 0 7 "$told" ''
    sleep 0.02
    touch mock/crates/low/src/lib.rt mock/broken
    mock 'where the build fails' 1 125 '' "$broke"
    mock 'where it fails again' 1 125 '' "$broke"
    rm -f mock/broken mock/crates/love_run/out/love_run
    touch mock/idle
    mock 'where the build ends well and makes no program' 1 125 '' "$broke"
    mock 'where it does so again' 1 125 '' "$broke"
    rm mock/idle
    at_once
    rm -f mock/crates/love_run/out/love_run "$log"
    mkdir "$log"
    mock "where the log can't be written" 0 125 '' "$cannot $room/mock/crates/love_run/out can't be written"
    rmdir "$log"
    path=$room/mock/tools:$room/mock/few mock 'where there is no flock' 0 125 '' "$cannot flock isn't on PATH"
    printf '#!/bin/sh\nexit 1\n' >mock/few/flock
    chmod +x mock/few/flock
    path=$room/mock/tools:$room/mock/few mock 'where nothing can be locked' 0 125 '' "*"$'\n'"$cannot $lock can't be locked"
    rm mock/tools/rt
    mock 'where there is no toolchain' 0 125 '' "$cannot rt, the toolchain's command, isn't on PATH"
    outside
}

# A copy of the script in no repository makes nothing, and a shell that isn't bash says one line.
outside() {
    local main=$room/away/crates/love_run/src/main.rt
    mkdir -p away/bin
    cp "$top/bin/love_run" away/bin/
    gives 'bin/love_run outside the repository' 125 \
        "bin/love_run: there is no program to build: $main isn't there"$'\n' /dev/null away/bin/love_run game
    if [[ -e away/crates ]]; then
        note FAILED 'bin/love_run outside the repository makes nothing'
    else
        note ok 'bin/love_run outside the repository makes nothing'
    fi
    if command -v dash >/dev/null; then
        gives 'bin/love_run, by dash' 125 \
            $'bin/love_run: this script needs bash, and was started by another shell\n' /dev/null dash "$top/bin/love_run" game
    else
        note skipped 'bin/love_run, by dash' 'there is no dash'
    fi
}

# Two calls that find no program: one of them builds, and both become it.
at_once() {
    local first=0 second=0 job
    : >mock/calls
    env "PATH=$path" mock/bin/love_run first >first.out 2>/dev/null </dev/null &
    job=$!
    env "PATH=$path" mock/bin/love_run second >second.out 2>/dev/null </dev/null || second=$?
    wait "$job" || first=$?
    if [[ "$first $second $(wc -l <mock/calls) $(cat first.out second.out)" == "7 7 1 1: first"$'\n'"1: second" ]]; then
        note ok 'bin/love_run, twice at once'
    else
        note FAILED 'bin/love_run, twice at once' "statuses $first and $second, $(wc -l <mock/calls) builds"
    fi
}
