"""Writes the rows of rows.py as definitions, proofs and law functions of crates/lua_meaning, and compares what the manual
decides with lua5.1. Run it in this folder, then `rt fmt` in the crate."""
import os
import re
import subprocess
import sys

from lua_tree import chunk
from rows import GROUPS
from wrap import lay

CRATE = "../../crates/lua_meaning/"


def codes(text):
    if not text:
        return "[]"
    if all(c in "\n\t" or 32 <= ord(c) < 127 and c not in '"\\' for c in text):
        return '(codes "%s")' % text.replace("\n", "\\n").replace("\t", "\\t")
    return "(" + " ∷ ".join(str(ord(c)) for c in text) + " ∷ [])"


def plain(values):
    return "(" + " ∷ ".join(values + ["[]"]) + ")"


def comment(source):
    return "".join("--     %s\n" % line for line in source.split("\n") if line.strip())


def compare(row):
    if not row.lua:
        return
    with open("/tmp/a.lua", "w") as out:
        out.write(row.source)
    told = subprocess.run(["lua5.1", "a.lua"], cwd="/tmp", capture_output=True, text=True)
    seen = re.sub(r" \((global|local|field|upvalue) '\w+'\)", "", told.stdout)
    if seen != row.out:
        print("lua5.1 differs:", row.name, repr(seen), repr(row.out), told.stderr.strip())


def files_term(row, programs):
    terms = []
    for i, file in enumerate(row.files):
        path, source = file[0], file[1]
        if len(file) > 2:
            code = file[2]
        else:
            name = "%s_file_%d" % (row.name, i + 1)
            programs.append("-- `%s` of `%s`:\n%sabbrev pub %s : Block\n%s = %s\n" % (path, row.name, comment(source), name, name, chunk(source)))
            code = "ready %s" % name
        terms.append("record { path = codes \"%s\"; bytes = %s; code = %s }" % (path, codes(source or ""), code))
    return plain(terms)


def write(group):
    title, rows = GROUPS[group]
    programs, claims, proofs, fields = [], [], [], []
    boot = False
    for row in rows:
        compare(row)
        extra = []
        files = files_term(row, programs)
        if row.file == "boot":
            program = "boot_program"
            if not boot:
                programs.append("-- the main function of state 0:\n%sabbrev pub boot_program : Block\nboot_program = %s\n" % (comment(row.source), chunk(row.source)))
            boot = True
        else:
            program = "%s_program" % row.name
            programs.append("-- `%s`:\n%sabbrev pub %s : Block\n%s = %s\n" % (row.name, comment(row.source), program, program, chunk(row.source)))
        start = "record { game = record { files = %s; state = %d }; file = codes \"%s\"; code = ready %s; args = %s; ticks = %d; replies = %s }" % (
            files, row.state, row.file, program, plain(row.args), row.steps, plain(row.replies))
        shown, want, kinds = [], [], []
        for key, term, wanted, kind in (("output", "r.output", codes(row.out), "List ℕ"), ("end", "r.end", row.end, "End")):
            if key in row.shows:
                shown.append(term)
                want.append(wanted)
                kinds.append(kind)
        for key, term, kind in (("asks", "r.asks", "List Ask"), ("cells", "r.cells", "ℕ"), ("left", "r.ticks", "ℕ")):
            v = getattr(row, key)
            if v is not None:
                shown.append(term)
                want.append(plain(v) if key == "asks" else str(v))
                kinds.append(kind)
        claims.append(claim(row, kinds, shown, start, want))
        fields.append("  pub %s : %s\n" % (row.name, camel(row.name)))
        proofs.append("%s : %s\nunfolding digits power\n%s = refl\n" % (row.name, camel(row.name), row.name))
    spec = SPEC % (title, "\n".join(programs), "\n".join(claims), "".join(fields))
    with open(CRATE + "specs/rows/%s.antt" % group, "w") as out:
        out.write(lay(spec))
    with open(CRATE + "proofs/of_rows/%s.antt" % group, "w") as out:
        out.write(lay(PROOF % (title, group, ", ".join(camel(r.name) for r in rows), "\n".join(proofs), group.lower(), group.lower(),
                               "; ".join("%s = %s" % (r.name, r.name) for r in rows))))


def camel(name):
    return "".join(w[0].upper() + w[1:] for w in name.split("_"))


def claim(row, kinds, shown, start, want):
    kind = " × ".join(kinds)
    return "abbrev pub %s : Type 0\n%s = Comes {A = %s} (λ r. (%s)) (%s) (%s)\n" % (
        camel(row.name), camel(row.name), kind, ", ".join(shown), start, ", ".join(want))


SPEC = """-- Rows: %s. Written by checks/meaning-rows/write.py.
use Rattle.std.specs.Prelude.{ℕ, ℤ, pos, negsuc, true, false, List, [], ◌∷◌, Option, Some, None, codes}
use Rattle.love_base.specs.Data.{Contents}
use Rattle.variant.specs.declared.reply.Refusal.TheVariants.{Full, WouldWaitInside, TooManyRunning, GameEnded}
use Rattle.lua_tree.specs.Tree as t
use Rattle.lua_tree.specs.Tree.{Block}
use Rattle.lua_meaning.specs.Message.{Message, Source, Event, Ask, Reply, pair_and, no_pairs}
use Rattle.lua_meaning.specs.Control.{Code, ready, faulty, not_lua}
use Rattle.lua_meaning.specs.Run.{Run, End, done, failed, no_steps, waits}
use Rattle.lua_meaning.specs.rows.Comes.{Comes, pair_message, hello_message, quit_event}

-- ---- programs

%s
-- ---- what they come to

%s
-- all of them
pub record Rows : Type 0 where
%s"""

PROOF = """-- Rows: %s. Written by checks/meaning-rows/write.py.
use Rattle.std.proofs.Common.{◌≡◌, refl}
use Rattle.std.specs.Fmt.{digits}
use Rattle.lua_value.specs.Arithmetic.{power}
use Rattle.lua_meaning.specs.rows.%s.{Rows, %s}

%s
pub rows_of_%s : Rows
rows_of_%s = record { %s }
"""

COMES = """-- What rows of programs claim.
use Rattle.std.specs.Prelude.{◌≡◌, ℕ, pos, List, [], ◌∷◌, None, codes}
use Rattle.love_base.specs.Data.{Contents}
use Rattle.lua_meaning.specs.Message.{Message, pair_and, no_pairs, Event, Reply}
use Rattle.lua_meaning.specs.Run.{Start, Run, run}

-- a run from a start shows this
abbrev pub Comes : {A : Type 0} → (Run → A) → Start → A → Type 0
Comes shown start wanted = shown (run start) ≡ wanted

-- two messages that rows send: `{a = {v = 1}, b = {v = 1}}`, and Data of the bytes `hello`
abbrev pub pair_message : Message
pair_message =
    Message.table (pair_and (Message.str (codes "a")) (Message.table (pair_and (Message.str (codes "v")) (Message.num (pos 1)) no_pairs))
    (pair_and (Message.str (codes "b")) (Message.table (pair_and (Message.str (codes "v")) (Message.num (pos 1)) no_pairs)) no_pairs))

abbrev pub hello_message : Message
hello_message = Message.datum (record { bytes = codes "hello"; name = None })

-- the event that `love.event.quit(3)` sends
abbrev pub quit_event : Reply
quit_event = Reply.event 0 3 (Event.user (codes "quit") (Message.num (pos 3) ∷ []))
"""


def main():
    os.makedirs(CRATE + "specs/rows", exist_ok=True)
    os.makedirs(CRATE + "proofs/of_rows", exist_ok=True)
    with open(CRATE + "specs/rows/Comes.antt", "w") as out:
        out.write(COMES)
    groups = sys.argv[1:] or list(GROUPS)
    for g in groups:
        write(g)
    all_groups = list(GROUPS)
    with open(CRATE + "specs/rows.antt", "w") as out:
        out.write("".join("pub mod %s\n" % g for g in ["Comes"] + all_groups))
    with open(CRATE + "proofs/of_rows.antt", "w") as out:
        out.write("".join("pub mod %s\n" % g for g in all_groups))
    with open(CRATE + "src/rows.rt", "w") as out:
        out.write("//! Rows of programs, computed from the definitions. Written by checks/meaning-rows/write.py.\n\n")
        for g in all_groups:
            out.write("ghost use Rattle.lua_meaning.specs.rows.%s as %s_rows;\n" % (g, g.lower()))
        for g in all_groups:
            out.write("\n/// Rows: %s.\npub fn rows_of_%s()\n    ensures { %s_rows.Rows }\n{}\n" % (GROUPS[g][0], g.lower(), g.lower()))
            folder = CRATE + "proofs/rows/rows_of_%s" % g.lower()
            os.makedirs(folder, exist_ok=True)
            with open(folder + "/Answers.antt", "w") as answers:
                answers.write("use Rattle.lua_meaning.proofs.of_rows.%s.{rows_of_%s as proved}\nuse Rattle.lua_meaning.proofs.rows.rows_of_%s.Goals as goal\n\npub returns : goal.returns\nreturns c = proved\n" % (g, g.lower(), g.lower()))
    print("%d rows" % sum(len(GROUPS[g][1]) for g in all_groups))


main()
