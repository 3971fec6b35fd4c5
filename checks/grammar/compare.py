#!/usr/bin/env python3
"""Compares what `parse` and luac5.1 say of sources.

usage: compare.py PROGRAM LUAC FILE..

PROGRAM is the built program of checks/grammar/src, as run.sh builds it. A source counts as different where one of the two takes it and the other doesn't,
unless the difference is one that docs/LANGUAGE.md marks as own; those are counted by their kind. Of faults at a token
that both name, the line is compared too.
"""
import re
import subprocess
import sys
from collections import Counter
from pathlib import Path

# What luac refuses for a limit of its own, which it counts in another way or which the profile hasn't.
LIMITS = re.compile(
    r"chunk has too many syntax levels|too many local variables|upvalues|constant table overflow"
    r"|control structure too long|function or expression too complex|too many C levels"
)
# Faults that only the profile has, or that it has at another number.
OWN = re.compile(r"NotWhole|TooDeep|TooManyLocals|TooLong")
PLACE = re.compile(r"^luac5\.1: .*?:(\d+): (.*)$", re.S)


def luac(path, command):
    done = subprocess.run([command, "-p", path], capture_output=True)
    return done.returncode == 0, done.stderr.decode("latin-1").strip()


def own(source, ours, theirs):
    """The own rule by which the two differ, or nothing."""
    if OWN.search(ours):
        return OWN.search(ours).group()
    if LIMITS.search(theirs):
        return "limit of luac: " + LIMITS.search(theirs).group()
    if source.startswith(b"#"):
        return "a first line with #"
    if b"\r" in source:
        return "a return"
    if re.search(rb"\[=+[^=\[]", source):
        return "[= that opens nothing"
    if "AmbiguousCall" in ours or "ambiguous" in theirs:
        return "( behind a string of several lines"
    return ""


def main():
    program, command, files = sys.argv[1], sys.argv[2], sys.argv[3:]
    # A byte 0 stands between sources, so one that holds it is left out.
    files = [f for f in files if b"\0" not in Path(f).read_bytes()]
    answers = subprocess.run(
        program.split(), input=b"\0".join(Path(f).read_bytes() for f in files), capture_output=True, check=True
    ).stdout.decode().splitlines()
    assert len(answers) == len(files)
    counts, kinds, faults, wrong = Counter(), Counter(), Counter(), 0
    for path, ours in zip(files, answers):
        taken, theirs = luac(path, command)
        if (ours == "ok") == taken:
            counts["taken" if taken else "refused"] += 1
            if not taken:
                faults[re.match(r"\w+", ours).group()] += 1
                line = re.search(r"line: (\d+)", ours)
                place = PLACE.match(theirs)
                if line and place and line.group(1) == place.group(1):
                    counts["refused on the same line"] += 1
            continue
        kind = own(Path(path).read_bytes(), ours, theirs)
        if kind:
            kinds[kind] += 1
        else:
            wrong += 1
            print(f"{path}: parse says {ours}, luac says {theirs or 'ok'}")
    print(f"{len(files)} sources: {dict(counts)}; faults {dict(faults)}; own {dict(kinds)}; differing {wrong}")
    sys.exit(1 if wrong else 0)


if __name__ == "__main__":
    main()
