#!/usr/bin/env python3
"""Writes Lua sources that differ from real ones in a few tokens.

usage: mutate.py OUT COUNT SEED FILE..

OUT gets COUNT files 0, 1, 2 and so on. Each is one of the files, cut to some of its statements, in which one to
three tokens are taken out, put in, exchanged or moved to another line.
"""
import random
import re
import sys
from pathlib import Path

TOKEN = re.compile(
    rb"""--\[(=*)\[.*?\]\1\]|--[^\n]*|\[(=*)\[.*?\]\2\]|"(?:\\.|[^"\\\n])*"|'(?:\\.|[^'\\\n])*'"""
    rb"""|[A-Za-z_]\w*|\.?\d[\w.]*|\.\.\.|\.\.|==|~=|<=|>=|\s+|.""",
    re.S,
)
KEYWORDS = (
    b"and break do else elseif end false for function if in local nil not or repeat return then true until while"
)
SPARE = KEYWORDS.split() + b"+ - * / % ^ # == ~= <= >= < > = ( ) { } [ ] ; : , . .. ... x y 1 's' \n".split(b" ")


def pieces(source):
    return [m.group() for m in TOKEN.finditer(source)]


def mutated(chance, tokens):
    tokens = list(tokens)
    solid = [i for i, t in enumerate(tokens) if not t.isspace() and not t.startswith(b"--")]
    if not solid:
        return b"".join(tokens)
    for _ in range(chance.choice([1, 1, 1, 2, 3])):
        i = chance.choice(solid)
        kind = chance.randrange(5)
        if kind == 0:
            tokens[i] = b" "
        elif kind == 1:
            tokens[i] = b" " + chance.choice(SPARE) + b" " + tokens[i]
        elif kind == 2:
            tokens[i] = b" " + chance.choice(SPARE) + b" "
        elif kind == 3:
            j = chance.choice(solid)
            tokens[i], tokens[j] = tokens[j], tokens[i]
        else:
            tokens[i] = b"\n" + tokens[i]
    return b"".join(tokens)


def main():
    out, count, seed, files = Path(sys.argv[1]), int(sys.argv[2]), int(sys.argv[3]), sys.argv[4:]
    chance = random.Random(seed)
    whole = [pieces(Path(f).read_bytes()) for f in files]
    whole = [tokens for tokens in whole if len(tokens) > 20]
    for n in range(count):
        tokens = chance.choice(whole)
        if len(tokens) > 600:
            start = chance.randrange(len(tokens) - 500)
            tokens = tokens[start:start + 500] if chance.random() < 0.3 else tokens
        (out / str(n)).write_bytes(mutated(chance, tokens))


if __name__ == "__main__":
    main()
