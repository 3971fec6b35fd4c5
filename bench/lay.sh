# shellcheck shell=bash disable=SC2154
# Lays a benchmark's program into a repository of its own, beside copies of the crates that it stands on, so that
# this repository's gate doesn't build it: it is proved and built there, which takes some minutes the first time.
# The benchmark's own files end in .txt here, since the gate refuses a source file of no crate.
# Read by bench/*/run.sh, which set `bench`, their own folder.

top=$(dirname -- "$(dirname -- "$bench")")

complain() { # STATUS WHY
    printf '%s\n' "${bench#"$top"/}/run.sh: $2" >&2
    exit "$1"
}

# Sets `folder` to the one that the caller names, which is kept with what is built in it for the next run, or else
# to a temporary one that goes with the script.
choose_folder() { # [FOLDER]
    [[ $# -le 1 && ${1-.} != '' && ${1-} != -* ]] || complain 64 "usage: ${bench#"$top"/}/run.sh [FOLDER]"
    command -v rt >/dev/null || complain 125 "rt, the toolchain's command, isn't on PATH"
    if (($# == 0)); then
        folder=$(mktemp -d)
        trap 'rm -rf -- "$folder"' EXIT
    else
        mkdir -p -- "$1"
        folder=$(readlink -f -- "$1")
        # What is laid takes the place of all crates there, so a folder with anything else, as this repository, is refused.
        [[ -e $folder/laid || -z $(ls -A -- "$folder") ]] || complain 64 "$folder holds what no benchmark laid there"
    fi
    : >"$folder/laid"
}

# A crate's line of this repository's crates.txt.
line_of() { # CRATE
    awk -v crate="$1" -F '[ :#]' '$1 == crate { print; found = 1 } END { exit !found }' "$top/crates.txt" ||
        complain 1 "crates.txt has no line of $1"
}

# Copies a crate's sources alone: what was built of it here stays here, and what was built there stays there.
lay_sources() { # FROM CRATE
    local part
    mkdir -p "$folder/crates/$2"
    for part in src specs proofs; do
        [[ ! -d $1/$part ]] || cp -R -- "$1/$part" "$folder/crates/$2/"
    done
}

# Lays the program, whose line of crates.txt this is, and the crates into `folder`, and goes to the program's crate.
lay() { # LINE CRATE..
    local line=$1 own=${1%%[ :]*} crate file
    shift
    mkdir -p "$folder/crates"
    # Nothing of an earlier run is left but what was built.
    find "$folder/crates" -mindepth 2 -maxdepth 2 ! -name out -exec rm -rf {} +
    cp "$top/HANDLES" "$folder/"
    for crate; do
        line_of "$crate"
        lay_sources "$top/crates/$crate" "$crate"
    done >"$folder/crates.txt"
    printf '%s\n' "$line" >>"$folder/crates.txt"
    lay_sources "$bench" "$own"
    while IFS= read -r file; do
        mv -- "$file" "${file%.txt}"
    done < <(find "$folder/crates/$own" -path "$folder/crates/$own/out" -prune -o -type f -name '*.txt' -print)
    cd "$folder/crates/$own"
}
