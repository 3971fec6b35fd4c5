"""Lays out lines of definitions within 100 columns: breaks at blanks outside quotes, four columns further in."""
LIMIT = 100


def blanks(line):
    """The places of the blanks at which a line may be broken."""
    quoted, at = False, []
    for i, c in enumerate(line):
        if c == '"':
            quoted = not quoted
        elif c == " " and not quoted:
            at.append(i)
    return at


def wrap(line):
    if len(line) <= LIMIT or line.lstrip().startswith(("--", "use ", "pub use ")):
        return [line]
    indent = len(line) - len(line.lstrip())
    out, inner = [], " " * (indent + 4)
    while len(line) > LIMIT:
        start = len(line) - len(line.lstrip())
        places = [p for p in blanks(line) if start + 20 < p < LIMIT]
        if not places:
            break
        # behind `=`, before `→` or a bracket where one stands in the later half, and else at the last blank
        best = None
        eq = [p for p in places if line[:p].endswith(" =")]
        if not out and eq and len(line) - eq[0] > 40:
            best = eq[0]
        if best is None:
            arrows = [p for p in places if p > LIMIT // 2 and line[:p].endswith((" →", " in", ">>=", " then"))]
            best = arrows[-1] if arrows else None
        if best is None:
            opens = [p for p in places if p > LIMIT // 2 and line[p + 1] == "("]
            best = opens[-1] if opens else places[-1]
        out.append(line[:best].rstrip())
        line = inner + line[best:].lstrip()
    return out + [line]


def lay(text):
    return "\n".join(part for line in text.split("\n") for part in wrap(line))


if __name__ == "__main__":
    import sys
    for path in sys.argv[1:]:
        with open(path) as file:
            text = file.read()
        laid = lay(text)
        if laid != text:
            with open(path, "w") as file:
                file.write(laid)
