#!/usr/bin/env python3
"""Writes the rows of lua_code: what a machine's run comes to, for the programs of lua_meaning's rows.

Run it at the top of the repository. It reads crates/lua_meaning/specs/rows and crates/lua_meaning/proofs/of_rows, and writes
the same claims about the machine into crates/lua_code, with proofs by computation.
"""

import pathlib
import re

TOP = pathlib.Path(__file__).resolve().parents[2]
MEANING = TOP / "crates" / "lua_meaning"
CODE = TOP / "crates" / "lua_code"
NAMES = ["Order", "Scopes", "Handlers", "Errors", "Ticks", "Library", "Channels", "Games"]


def rows(name):
    """The claims of one file, about the machine."""
    text = (MEANING / "specs" / "rows" / f"{name}.antt").read_text()
    head, rest = text.split("-- ---- programs", 1)
    programs = re.findall(r"^abbrev pub (\w+) : Block", rest, re.M)
    start = re.search(r"^abbrev pub [A-Z]\w* : Type 0|^-- ---- rows", rest, re.M).start()
    claims = rest[start:]
    words = re.sub(r'"(?:\\.|[^"\\])*"', "", claims)
    title = head.splitlines()[0]
    title = title[: title.index(". Written")].replace("-- Rows:", "-- Rows of the machine:")
    uses = []
    for line in head.splitlines()[1:]:
        found = re.match(r"use Rattle\.lua_meaning\.specs\.rows\.Comes\.\{(.*)\}", line)
        if found:
            others = [x.strip() for x in found[1].split(",") if x.strip() != "Comes"]
            if others:
                uses.append(f"use Rattle.lua_meaning.specs.rows.Comes.{{{', '.join(others)}}}")
        elif line.startswith("use "):
            uses += needed(line, words)
    uses += needed(f"use Rattle.lua_meaning.specs.rows.{name}.{{{', '.join(programs)}}}", words)
    uses.append("use Rattle.lua_code.specs.rows.Comes.{Comes}")
    return f"{title}. Written by checks/machine-rows/write.py.\n" + "\n".join(uses) + "\n\n" + claims


def needed(line, claims):
    """An import with the names alone that the claims have."""
    if "lua_tree.specs.Tree" in line:
        return []
    found = re.match(r"(use .*\.)\{(.*)\}", line)
    if not found:
        return [line] if f"{line.split()[-1]}." in claims else []
    names = [x.strip() for x in found[2].split(",")]
    kept = [x for x in names if re.search(word(x), claims)]
    return [f"{found[1]}{{{', '.join(kept)}}}"] if kept else []


def word(name):
    """How a name is found in a text: an operator by what stands between its operands."""
    parts = [p for p in name.split("◌") if p]
    return "|".join(re.escape(p) for p in parts) if "◌" in name else rf"(?<!\w){re.escape(name)}(?!\w)"


def proofs(name):
    text = (MEANING / "proofs" / "of_rows" / f"{name}.antt").read_text()
    text = re.sub(r"^-- Rows: (.*)\. Written.*$", r"-- Rows of the machine: \1. Written by checks/machine-rows/write.py.", text, flags=re.M)
    return text.replace("Rattle.lua_meaning.specs.rows.", "Rattle.lua_code.specs.rows.")


def main():
    for folder in ["specs/rows", "proofs/of_rows"]:
        (CODE / folder).mkdir(parents=True, exist_ok=True)
    for name in NAMES:
        (CODE / "specs" / "rows" / f"{name}.antt").write_text(rows(name))
        (CODE / "proofs" / "of_rows" / f"{name}.antt").write_text(proofs(name))
        low = name.lower()
        folder = CODE / "proofs" / "rows" / f"rows_of_{low}"
        folder.mkdir(parents=True, exist_ok=True)
        (folder / "Answers.antt").write_text(
            f"use Rattle.lua_code.proofs.of_rows.{name}.{{rows_of_{low} as proved}}\n"
            f"use Rattle.lua_code.proofs.rows.rows_of_{low}.Goals as goal\n\n"
            "pub returns : goal.returns\nreturns c = proved\n"
        )
    (CODE / "specs" / "rows.antt").write_text("".join(f"pub mod {n}\n" for n in ["Comes", *NAMES]))
    (CODE / "proofs" / "of_rows.antt").write_text("".join(f"pub mod {n}\n" for n in NAMES))


main()
