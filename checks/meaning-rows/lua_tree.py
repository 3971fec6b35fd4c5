"""Reads Lua 5.1 and writes the tree that lua_tree's definitions have for it, as a term."""
import re

KEYWORDS = set("and break do else elseif end false for function if in local nil not or repeat return then true until while".split())
SYMBOLS = ["...", "..", "==", "~=", "<=", ">=", "<", ">", "=", "(", ")", "{", "}", "[", "]", ";", ":", ",", ".",
           "+", "-", "*", "/", "%", "^", "#"]
ESCAPES = {"a": 7, "b": 8, "f": 12, "n": 10, "r": 13, "t": 9, "v": 11}


def tokens(source):
    at, line, out = 0, 1, []
    while at < len(source):
        c = source[at]
        if c == "\n":
            line, at = line + 1, at + 1
        elif c in " \t\r\v\f":
            at += 1
        elif source.startswith("--", at):
            while at < len(source) and source[at] != "\n":
                at += 1
        elif c.isalpha() or c == "_":
            m = re.compile(r"\w+").match(source, at)
            out.append(("word" if m.group() in KEYWORDS else "name", m.group(), line))
            at = m.end()
        elif c.isdigit():
            m = re.compile(r"0[xX][0-9a-fA-F]+|\d+").match(source, at)
            out.append(("number", int(m.group(), 0), line))
            at = m.end()
        elif c in "\"'":
            begin, text = at, []
            at += 1
            while source[at] != c:
                if source[at] == "\\":
                    m = re.compile(r"\d{1,3}").match(source, at + 1)
                    if m:
                        text.append(int(m.group()))
                        at = m.end()
                    else:
                        text.append(ESCAPES.get(source[at + 1], ord(source[at + 1])))
                        at += 2
                else:
                    text.append(ord(source[at]))
                    at += 1
            at += 1
            out.append(("str", text, line))
        elif source.startswith("[[", at):
            end = source.index("]]", at)
            text = source[at + 2:end]
            out.append(("str", [ord(x) for x in text.removeprefix("\n")], line))
            line, at = line + text.count("\n"), end + 2
        else:
            s = next(s for s in SYMBOLS if source.startswith(s, at))
            out.append(("symbol", s, line))
            at += len(s)
    out.append(("end", "", line))
    return out


def text(value):
    """A term for a list of bytes."""
    values = [ord(c) for c in value] if isinstance(value, str) else value
    if all(32 <= v < 127 and v not in (34, 92) for v in values):
        return '(codes "%s")' % "".join(map(chr, values))
    return "(" + " ∷ ".join(map(str, values)) + " ∷ [])"


def number(n):
    return "(pos %d)" % n if n >= 0 else "(negsuc %d)" % (-n - 1)


def names(xs):
    return "(" + " ∷ ".join([text(x) for x in xs] + ["[]"]) + ")" if xs else "[]"


def exprs(es):
    return "(t.expr_and %s %s)" % (es[0], exprs(es[1:])) if es else "t.no_exprs"


LEVELS = [{"or"}, {"and"}, {"<", ">", "<=", ">=", "~=", "=="}, {".."}, {"+", "-"}, {"*", "/", "%"}]
NAMES = {"or": "or_", "and": "and_", "<": "less", ">": "greater", "<=": "less_equal", ">=": "greater_equal", "~=": "not_equal",
         "==": "equal", "..": "concat", "+": "add", "-": "sub", "*": "mul", "/": "div", "%": "mod_", "^": "pow"}


class Reader:
    def __init__(self, source):
        self.tokens, self.at = tokens(source), 0

    def peek(self, *values):
        return self.tokens[self.at][0] in ("word", "symbol") and self.tokens[self.at][1] in values

    def line(self):
        return self.tokens[self.at][2]

    def take(self, *values):
        if self.peek(*values):
            self.at += 1
            return True
        return False

    def want(self, value):
        assert self.take(value), (value, self.tokens[self.at])

    def name(self):
        kind, value, _ = self.tokens[self.at]
        assert kind == "name", self.tokens[self.at]
        self.at += 1
        return value

    def block(self):
        stats = []
        while not self.peek("end", "else", "elseif", "until") and self.tokens[self.at][0] != "end":
            stats.append(self.stat())
            self.take(";")
        term = "t.no_stats"
        for s in reversed(stats):
            term = "(t.stat_and %s %s)" % (s, term)
        return term

    def exprs(self):
        es = [self.expr()]
        while self.take(","):
            es.append(self.expr())
        return es

    def stat(self):
        line = self.line()
        if self.take("do"):
            b = self.block()
            self.want("end")
            return "(t.do_block %d %s)" % (line, b)
        if self.take("while"):
            e = self.expr()
            self.want("do")
            b = self.block()
            self.want("end")
            return "(t.while_loop %d %s %s)" % (line, e, b)
        if self.take("repeat"):
            b = self.block()
            self.want("until")
            return "(t.repeat_loop %d %s %s)" % (line, b, self.expr())
        if self.take("if"):
            e = self.expr()
            self.want("then")
            return "(t.if_stat %d %s)" % (line, self.arms(e))
        if self.take("for"):
            return self.for_stat(line)
        if self.take("function"):
            target = self.name_expr(line)
            method = False
            while self.peek(".", ":"):
                at = self.line()
                method = self.take(":")
                if not method:
                    self.want(".")
                target = "(t.index %d %s (t.str %d %s))" % (at, target, self.line(), text(self.name()))
                if method:
                    break
            return "(t.function_stat %d %s %s)" % (line, target, self.func(line, method))
        if self.take("local"):
            if self.take("function"):
                at = self.tokens[self.at - 1][2]
                x = self.name()
                return "(t.local_function %d %s %s)" % (line, text(x), self.func(at, False))
            xs = [self.name()]
            while self.take(","):
                xs.append(self.name())
            es = self.exprs() if self.take("=") else []
            return "(t.local %d %s %s)" % (line, names(xs), exprs(es))
        if self.take("return"):
            es = [] if self.peek("end", "else", "elseif", "until", ";") or self.tokens[self.at][0] == "end" else self.exprs()
            return "(t.return_stat %d %s)" % (line, exprs(es))
        if self.take("break"):
            return "(t.break_stat %d)" % line
        e = self.suffixed()
        if self.peek("=", ","):
            targets = [e]
            while self.take(","):
                targets.append(self.suffixed())
            self.want("=")
            return "(t.assign %d %s %s)" % (line, exprs(targets), exprs(self.exprs()))
        return "(t.call_stat %d %s)" % (line, e)

    def arms(self, e):
        b = self.block()
        if self.take("elseif"):
            test = self.expr()
            self.want("then")
            rest = self.arms(test)
        elif self.take("else"):
            rest = "(t.else_block %s)" % self.block()
            self.want("end")
        else:
            self.want("end")
            rest = "t.no_else"
        return "(t.arm_and %s %s %s)" % (e, b, rest)

    def for_stat(self, line):
        xs = [self.name()]
        if self.take("="):
            es = self.exprs()
            self.want("do")
            b = self.block()
            self.want("end")
            return "(t.%s %d %s %s %s)" % ("num_for" if len(es) == 2 else "num_for_by", line, text(xs[0]), " ".join(es), b)
        while self.take(","):
            xs.append(self.name())
        self.want("in")
        es = self.exprs()
        self.want("do")
        b = self.block()
        self.want("end")
        return "(t.gen_for %d %s %s %s)" % (line, names(xs), exprs(es), b)

    def func(self, line, method):
        xs, dots = ["self"] if method else [], False
        self.want("(")
        while not self.take(")"):
            if self.take("..."):
                dots = True
            else:
                xs.append(self.name())
            self.take(",")
        b = self.block()
        self.want("end")
        return "(t.func %d %s %s %s)" % (line, names(xs), "true" if dots else "false", b)

    def name_expr(self, line=None):
        at = self.line()
        return "(t.name %d %s)" % (at, text(self.name()))

    def suffixed(self):
        line = self.line()
        if self.take("("):
            e = "(t.paren %d %s)" % (line, self.expr())
            self.want(")")
        else:
            e = self.name_expr()
        while True:
            line = self.line()
            if self.take("."):
                e = "(t.index %d %s (t.str %d %s))" % (line, e, self.line(), text(self.name()))
            elif self.take("["):
                e = "(t.index %d %s %s)" % (line, e, self.expr())
                self.want("]")
            elif self.take(":"):
                x = self.name()
                at = self.line()
                e = "(t.method %d %s %s %s)" % (at, e, text(x), exprs(self.args()))
            elif self.peek("(", "{") or self.tokens[self.at][0] == "str":
                e = "(t.call %d %s %s)" % (line, e, exprs(self.args()))
            else:
                return e

    def args(self):
        if self.take("("):
            es = [] if self.peek(")") else self.exprs()
            self.want(")")
            return es
        return [self.simple()]

    def simple(self):
        kind, value, line = self.tokens[self.at]
        if kind == "number":
            self.at += 1
            return "(t.number %d %s)" % (line, number(value))
        if kind == "str":
            self.at += 1
            return "(t.str %d %s)" % (line, text(value))
        for word, form in (("nil", "nil"), ("true", "true_"), ("false", "false_"), ("...", "dots")):
            if self.take(word):
                return "(t.%s %d)" % (form, line)
        if self.take("function"):
            return "(t.function %d %s)" % (line, self.func(line, False))
        if self.take("{"):
            return "(t.table %d %s)" % (line, self.fields())
        return self.suffixed()

    def fields(self):
        fields = []
        while not self.take("}"):
            line = self.line()
            if self.take("["):
                k = self.expr()
                self.want("]")
                self.want("=")
                fields.append("keyed_and %s %s" % (k, self.expr()))
            elif self.tokens[self.at][0] == "name" and self.tokens[self.at + 1][:2] == ("symbol", "="):
                k = "(t.str %d %s)" % (line, text(self.name()))
                self.want("=")
                fields.append("keyed_and %s %s" % (k, self.expr()))
            else:
                fields.append("item_and %s" % self.expr())
            if not self.take(","):
                self.take(";")
        term = "t.no_fields"
        for f in reversed(fields):
            term = "(t.%s %s)" % (f, term)
        return term

    def expr(self, level=0):
        if level == len(LEVELS):
            return self.unary()
        left = self.expr(level + 1)
        while self.peek(*LEVELS[level]):
            _, op, line = self.tokens[self.at]
            self.at += 1
            right = self.expr(level if op == ".." else level + 1)
            left = "(t.binary %d t.%s %s %s)" % (line, NAMES[op], left, right)
            if op == "..":
                return left
        return left

    def unary(self):
        line = self.line()
        for op, form in (("not", "not_"), ("-", "negate"), ("#", "length_of")):
            if self.take(op):
                return "(t.unary %d t.%s %s)" % (line, form, self.unary())
        left = self.simple()
        line = self.line()
        if self.take("^"):
            return "(t.binary %d t.pow %s %s)" % (line, left, self.unary())
        return left


def chunk(source):
    reader = Reader(source)
    term = reader.block()
    assert reader.tokens[reader.at][0] == "end", reader.tokens[reader.at]
    return term
