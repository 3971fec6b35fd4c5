#!/usr/bin/env python3
"""Writes a copy of the crate lua_tree in which each function of its cycle is checked alone.

usage: alone.py TO

TO gets crates/ with lua_tree and the crates below it. There each function of `#[cycle(grammar)]` calls stubs of the
others, which have the same contracts and the body `Err(Stop::Memory)`. So there is no cycle, and `rt check --only
loops` in TO/crates/lua_tree takes seconds for each function, where the whole cycle takes many minutes. What is written
in `proofs/+grammar` for a function stands in the copy as that function's own. The copy proves nothing of the crate:
the cycle is what counts. Run again after an edit; a file that is as before isn't written.
"""
import re
import shutil
import sys
from pathlib import Path

TOP = Path(__file__).resolve().parents[2]
CRATE = TOP / "crates/lua_tree"
MEMBER = re.compile(r"#\[cycle\(grammar\)\]\n((?:#\[[^\n]*\n)*)((?:pub\(crate\) )?fn (\w+)\(.*?)\n\{\n", re.S)
IMPORT = re.compile(r"^use ([\w:]+)::(\{[^}]*\}|\w+);\n", re.M)


def put(path, text):
    path.parent.mkdir(parents=True, exist_ok=True)
    if not path.exists() or path.read_text() != text:
        path.write_text(text)


def names_of(listed):
    return [name.strip() for name in listed.strip("{}").split(",") if name.strip()]


def use(path, names):
    if not names:
        return ""
    return f"use {path}::{names[0]};\n" if len(names) == 1 else f"use {path}::{{{', '.join(names)}}};\n"


def members(texts):
    """For each file the functions of the cycle, each with its signature and contract."""
    found = {stem: {m[3]: m[2] for m in MEMBER.finditer(text)} for stem, text in texts.items()}
    return {stem: those for stem, those in found.items() if those}


def without_cycle(stem, text, cycle):
    """A file whose calls of functions of the cycle are calls of their stubs."""

    def parted(m):
        path, names = m[1], names_of(m[2])
        file = path.removeprefix("crate::")
        stubs = [name for name in names if name in cycle.get(file, {})]
        return use(f"crate::stub_{file}", stubs) + use(path, [name for name in names if name not in stubs])

    text = IMPORT.sub(parted, text)
    for name in cycle.get(stem, {}):
        text = re.sub(rf"(?<!fn )(?<![\w:.]){name}\(", f"crate::stub_{stem}::{name}(", text)
    text = text.replace("#[cycle(grammar)]\n", "")
    if stem == "lib":
        for file in cycle:
            text = text.replace(f"mod {file};\n", f"mod {file};\nmod stub_{file};\n")
    return text


def stubs_of(stem, text, cycle):
    heads = "\n".join(cycle[stem].values())
    used = set(re.findall(r"\w+", heads))
    functions = {name for those in cycle.values() for name in those}
    uses = "use crate::stop::Stop;\n"
    for m in IMPORT.finditer(text):
        uses += use(m[1], [name for name in names_of(m[2]) if name in used - functions - {"Stop"}])
    own = re.findall(r"^(?:pub\(crate\) )?(?:enum|struct) (\w+)", text, re.M)
    uses += "".join(use(f"crate::{stem}", [name]) for name in own if name in used)
    ghost = "".join(re.findall(r"^ghost use [^\n]*\n", text, re.M))
    bodies = ""
    for head in cycle[stem].values():
        head = head if head.startswith("pub") else f"pub(crate) {head}"
        bodies += f"\n{head}\n{{\n    Err(Stop::Memory)\n}}\n"
    return f"{ghost}\n{uses}{bodies}"


def own_proofs(file):
    """What `proofs/+grammar` has for each function, as files of its own."""
    head, *items = re.split(r"\n(?=(?:abbrev )?pub \w+(?:-\w+)?::|(?:abbrev )?pub [\w-]+::)", file.read_text())
    head = "\n".join(line for line in head.split("\n") if line.startswith("use "))
    found = {}
    for item in items:
        item = item.split("\n-- ----")[0].rstrip()
        m = re.match(r"(?:abbrev )?pub (?:(invariant|decreases)-)?(\w+)::(\w+)(?:-(\S+))? :", item)
        kind, stem, function, goal = m.groups()
        if not goal:
            continue
        if kind:
            item = item.replace(f"{kind}-{stem}::{function}-{goal}", f"{kind}-{goal}")
        else:
            item = item.replace(f"{stem}::{function}-", "")
            item = re.sub(rf"^{re.escape(goal)} rank c\b", f"{goal} c", item, flags=re.M)
        found.setdefault((stem, function), []).append(item)
    for (stem, function), those in found.items():
        mine = head.replace("proofs.+grammar.", f"proofs.{stem}.{function}.")
        yield Path("proofs") / stem / function / file.name, mine + "\n\n" + "\n\n".join(those) + "\n"


def main():
    to = Path(sys.argv[1])
    copy = to / "crates/lua_tree"
    below = ["love_base", "lua_value", "lua_token"]
    listed = [line for line in (TOP / "crates.txt").read_text().splitlines() if line.split(":")[0] in below + ["lua_tree"]]
    put(to / "crates.txt", "\n".join(listed) + "\n")
    put(to / "HANDLES", (TOP / "HANDLES").read_text())
    for name in below:
        for part in ("src", "specs", "proofs", "out"):
            if (TOP / "crates" / name / part).exists() and not (to / "crates" / name / part).exists():
                shutil.copytree(TOP / "crates" / name / part, to / "crates" / name / part)
    texts = {file.stem: file.read_text() for file in sorted((CRATE / "src").glob("*.rt"))}
    cycle = members(texts)
    for stem, text in texts.items():
        put(copy / f"src/{stem}.rt", without_cycle(stem, text, cycle))
    for stem in cycle:
        put(copy / f"src/stub_{stem}.rt", stubs_of(stem, texts[stem], cycle))
    for part in ("specs", "proofs"):
        for file in (CRATE / part).rglob("*.antt"):
            if "+grammar" not in file.parts:
                put(copy / file.relative_to(CRATE), file.read_text())
    for file in (CRATE / "proofs/+grammar").glob("*.antt"):
        for path, text in own_proofs(file):
            put(copy / path, text)
    print(f"{sum(map(len, cycle.values()))} functions")


main()
