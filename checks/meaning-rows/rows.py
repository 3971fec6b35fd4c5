"""The rows of lua_meaning: programs, what they are run with, and what they come to.

`Row(name, source, out=.., ..)`; `lua=True` where the manual decides, so that `write.py` compares the output with lua5.1's.
A chunk is the file a.lua unless a row says otherwise; an end is a term of the definitions.
"""
from dataclasses import dataclass, field

DONE = "done None"
STEPS = "no_steps"


def number(n):
    return "done (Some (%s))" % ("pos %d" % n if n >= 0 else "negsuc %d" % (-n - 1))


def error(text):
    return "failed (codes \"%s\")" % text


@dataclass
class Row:
    name: str
    source: str
    out: str = ""
    end: str = DONE
    steps: int = 1000
    replies: list = field(default_factory=list)
    asks: list = None
    cells: int = None
    left: int = None
    lua: bool = False
    file: str = "a.lua"
    files: list = field(default_factory=list)
    args: list = field(default_factory=list)
    state: int = 0
    shows: str = "output end"


BOOT = open(__file__.replace("rows.py", "boot.lua")).read()

GROUPS = {}

GROUPS["Order"] = ("order of evaluation, assignment and lists (manual §2.4.3, §2.5)", [
    Row("swap", "local a, b = 1, 2\na, b = b, a\nprint(a, b)", "2\t1\n", lua=True),
    Row("operands", "local function f(x) print(x) return x end\nreturn f(1) + f(2) * f(3)", "1\n2\n3\n", number(7), lua=True),
    Row("arguments", "local function f(x) print(x) return x end\nlocal function g(...) return select('#', ...) end\nprint(g(f(1), f(2), f(3)))",
        "1\n2\n3\n3\n", lua=True),
    Row("fields", "local function f(x) print(x) return x end\nlocal t = {f(1), [f(2)] = f(3), f(4)}\nprint(#t, t[2])", "1\n2\n3\n4\n2\t4\n", lua=True),
    Row("targets", "local t = {}\nlocal function f(x) print(x) return t end\nf('a')[1], f('b')[1] = f('c') and 1, f('d') and 2\nprint(t[1])",
        "a\nb\nc\nd\n1\n", lua=True),
    Row("last_first", "local t = setmetatable({}, {__newindex = function(t, k, v) print(k, v) end})\nt.a, t.b, t.c = 1, 2, 3",
        "c\t3\nb\t2\na\t1\n", lua=True),
    Row("same_target", "local i, t = 1, {}\ni, t[i] = i + 1, 20\nprint(i, t[1], t[2])", "2\t20\tnil\n", lua=True),
    Row("and_or", "local function f(x) print('f') return x end\nprint(false and f(1), nil or f(2), 3 or f(4), 5 and f(false))",
        "f\nf\nfalse\t2\t3\tfalse\n", lua=True),
    Row("middle", "local function f() return 1, 2 end\nlocal t = {f(), f()}\nprint(#t, (f()), f())", "3\t1\t1\t2\n", lua=True),
    Row("fewer", "local a, b, c = (function() return 1 end)()\nlocal d, e = 1, 2, 3\nprint(a, b, c, d, e)", "1\tnil\tnil\t1\t2\n", lua=True),
    Row("varargs", "local function f(a, ...) local t = {n = select('#', ...), ...} return a, t.n, ..., 9 end\nprint(f(1, nil, 3))\nprint((f(1, 2)))",
        "1\t2\tnil\t9\n1\n", lua=True),
    Row("powers", "print(2 ^ 3 ^ 2, -2 ^ 2, 2 ^ 10)", "512\t-4\t1024\n", lua=True),
    Row("greater", "local function f(x) print(x) return x end\nprint(f(1) > f(2), f(2) >= f(2))", "1\n2\n2\n2\nfalse\ttrue\n", lua=True),
    Row("method_order", "local o = {m = function(self, a) print(a) return self end}\nlocal function f(x) print(x) return o end\nf('o'):m(f('a') and 'm')",
        "o\na\nm\n", lua=True),
    Row("concat_order", "local function f(x) print(x) return x end\nprint(f('a') .. f('b') .. f(1))", "a\nb\n1\nab1\n", lua=True),
])

GROUPS["Scopes"] = ("locals, closures and loops (manual §2.4, §2.6)", [
    Row("loop_closures", "local f = {}\nfor i = 1, 3 do f[i] = function() i = i + 1 return i end end\nprint(f[1](), f[1](), f[2]())", "2\t3\t3\n", cells=3, lua=True),
    Row("shared", "local n = 0\nlocal function up() n = n + 1 end\nlocal function get() return n end\nup() up()\nprint(get(), n)", "2\t2\n", cells=1, lua=True),
    Row("hidden", "local x = 1\ndo local x = 2 print(x) end\nlocal x = x + 10\nprint(x)", "2\n11\n", cells=0, lua=True),
    Row("repeat_scope", "local i = 0\nrepeat local done = i >= 2 i = i + 1 until done\nprint(i)", "3\n", cells=0, lua=True),
    Row("repeat_captured", "local f\nrepeat local x = 5 f = function() return x end until x == 5\nprint(f())", "5\n", cells=1, lua=True),
    Row("recursive", "local function fact(n) if n == 0 then return 1 end return n * fact(n - 1) end\nprint(fact(5))", "120\n", cells=1, lua=True),
    Row("while_closures", "local fs, i = {}, 0\nwhile i < 2 do i = i + 1 local j = i fs[i] = function() j = j + 1 return j end end\nprint(fs[1](), fs[1](), fs[2]())",
        "2\t3\t3\n", cells=2, lua=True),
    Row("each_closures", "local fs = {}\nfor k, v in pairs({10, 20}) do fs[k] = function() return v end end\nprint(fs[1](), fs[2]())", "10\t20\n", cells=2, lua=True),
    Row("break_outer", "for i = 1, 3 do\n  while true do if i == 2 then break end print(i) break end\nend", "1\n3\n", lua=True),
    Row("return_inner", "local function f() for i = 1, 9 do while true do if i == 3 then return i, 'x' end break end end end\nprint(f())", "3\tx\n", lua=True),
    Row("downwards", "for i = 3, 1, -1 do print(i) end\nfor i = 1, 0 do print('never') end\nfor i = 1, 5, 3 do print(i) end", "3\n2\n1\n1\n4\n", lua=True),
    Row("text_for", "for i = '1', '2' do print(i) end", "1\n2\n"),
    Row("changed_counter", "for i = 1, 3 do local j = i i = 10 print(i, j) end", "10\t1\n10\t2\n10\t3\n", lua=True),
    Row("last_numbers", "for i = 99999999999998, 99999999999999 do print(i) end", "99999999999998\n99999999999999\n", lua=True),
    Row("globals", "x = 1\nfunction f() x = x + 1 return y end\nprint(f(), x, _G.x, _G._G == _G)", "nil\t2\t2\ttrue\n", lua=True),
    Row("named_functions", "local t = {u = {}}\nfunction t.f(a) return a end\nfunction t.u:g(a) return self == t.u, a end\nprint(t.f(1), t.u:g(2))", "1\ttrue\t2\n", lua=True),
    Row("no_cells", "for i = 1, 20 do local j = i end", "", cells=0, steps=100, lua=True),
    Row("loop_cells", "local f for i = 1, 3 do f = function() return i end end", "", cells=3, lua=True),
    Row("parameter_cells", "local function f(a) return function() return a end end f(1) f(2)", "", cells=2, lua=True),
    Row("twice_declared", "local a, a = 1, 2\nlocal function f() return a end\nprint(f())", "2\n", cells=1, lua=True),
    Row("else_arms", "local function f(n) if n == 1 then return 'a' elseif n == 2 then return 'b' else return 'c' end end\nprint(f(1), f(2), f(3))",
        "a\tb\tc\n", lua=True),
])

GROUPS["Handlers"] = ("metamethods (manual §2.8)", [
    Row("index_call", "local t = setmetatable({}, {__index = function(t, k) return k .. '!' end, __call = function(self, a) return a + 1 end})\nprint(t.x, t(4))",
        "x!\t5\n", lua=True),
    Row("chain", "local a = {x = 1}\nlocal b = setmetatable({y = 2}, {__index = a})\nlocal c = setmetatable({}, {__index = b})\nprint(c.x, c.y, c.z)", "1\t2\tnil\n", lua=True),
    Row("index_loop", "local t = {}\nsetmetatable(t, {__index = t})\nprint(pcall(function() return t.x end))", "false\ta.lua:3: index loop\n"),
    Row("newindex_table", "local log = {}\nlocal t = setmetatable({old = 1}, {__newindex = log})\nt.old = 2 t.new = 3\nprint(t.old, t.new, log.old, log.new)",
        "2\tnil\tnil\t3\n", lua=True),
    Row("arithmetic_events", "local m = {}\nfor _, e in ipairs({'add', 'sub', 'mul', 'div', 'mod', 'pow', 'concat'}) do m['__' .. e] = function(a, b) return e end end\n"
        "m.__unm = function(a, b) return a == b end\nlocal t = setmetatable({}, m)\nprint(t + 1, 1 - t, t * t, t / 1, t % 1, 2 ^ t, t .. 'x', -t)",
        "add\tsub\tmul\tdiv\tmod\tpow\tconcat\ttrue\n", lua=True),
    Row("first_operand", "local a = setmetatable({}, {__add = function() return 'a' end})\nlocal b = setmetatable({}, {__add = function() return 'b' end})\nprint(a + b, b + a, 1 + b)",
        "a\tb\tb\n", lua=True),
    Row("equality", "local eq = function() return 1 end\nlocal a, b = setmetatable({}, {__eq = eq}), setmetatable({}, {__eq = eq})\n"
        "local c = setmetatable({}, {__eq = function() return true end})\nprint(a == b, a ~= b, a == c, a == 1, rawequal(a, b))", "true\tfalse\tfalse\tfalse\tfalse\n", lua=True),
    Row("order_events", "local m = {__lt = function(a, b) return a.n < b.n end}\nlocal a, b = setmetatable({n = 1}, m), setmetatable({n = 2}, m)\nprint(a < b, a > b, a <= b, a >= b)",
        "true\tfalse\ttrue\tfalse\n", lua=True),
    Row("le_event", "local m = {__le = function(a, b) return 'yes' end, __lt = function() return nil end}\nlocal a, b = setmetatable({}, m), setmetatable({}, m)\nprint(a <= b, a < b)",
        "true\tfalse\n", lua=True),
    Row("concat_middle", "local t = setmetatable({}, {__concat = function(a, b) return (type(a) == 'table' and 'T' or a) .. '+' .. (type(b) == 'table' and 'T' or b) end})\nprint('a' .. t .. 'b' .. 'c')",
        "aT+bc\n", lua=True),
    Row("tostring_event", "local t = setmetatable({}, {__tostring = function() return 'me' end})\nprint(t, tostring(t), tostring({}) == 'table')", "me\tme\ttrue\n"),
    Row("tostring_bad", "local t = setmetatable({}, {__tostring = function() return {} end})\nprint(pcall(print, 1, t))\nprint(type(tostring(t)))",
        "false\t'tostring' must return a string to 'print'\ntable\n"),
    Row("protected", "local t = setmetatable({}, {__metatable = 'no'})\nprint(getmetatable(t), pcall(setmetatable, t, {}))", "no\tfalse\tcannot change a protected metatable\n", lua=True),
    Row("text_methods", "local s = 'abc'\nprint(s:len(), s:upper(), ('x'):rep(3), #s, s.nothing, getmetatable('').__index == string)", "3\tABC\txxx\t3\tnil\ttrue\n", lua=True),
    Row("call_chain", "local f = setmetatable({}, {__call = setmetatable({}, {__call = function() return 1 end})})\nprint(pcall(f))", "false\tattempt to call a table value\n"),
    Row("handler_called", "local h = setmetatable({}, {__call = function(self, a, b) return b end})\nlocal t = setmetatable({}, {__add = h})\nprint(t + 7)", "7\n", lua=True),
    Row("raw", "local t = setmetatable({}, {__index = function() return 1 end, __newindex = function() end})\nrawset(t, 'a', 2)\nt.b = 3\nprint(rawget(t, 'a'), rawget(t, 'b'), t.b)",
        "2\tnil\t1\n", lua=True),
    Row("length_ignored", "print(#setmetatable({1, 2}, {__len = function() return 9 end}))", "2\n", lua=True),
])

GROUPS["Errors"] = ("errors, their places, and pcall (manual §2.7, §5.1)", [
    Row("levels", "local function f() error('bad', 2) end\nlocal function g()\n  f()\nend\nprint(pcall(g))", "false\ta.lua:3: bad\n", lua=True),
    Row("level_one", "print(pcall(function()\n  error('x')\nend))\nprint(pcall(error, 'y'), pcall(error, 'z', 0))", "false\ta.lua:2: x\nfalse\tfalse\tz\n", lua=False),
    Row("error_values", "print(pcall(error, {}) , select(2, pcall(error, nil)), select(2, pcall(error, 5)), select(2, pcall(error, true)))", "false\tnil\t5\ttrue\n", lua=True),
    Row("level_two_pcall", "print(pcall(error, 'x', 2))", "false\ta.lua:1: x\n", lua=True),
    Row("main_level_two", "error('x', 2)", "", error("x")),
    Row("pcall_pcall", "print(pcall(pcall, error, 'x'))", "true\tfalse\tx\n", lua=True),
    Row("not_called", "print(pcall(nil))\nprint(pcall(5, 1))\nprint(pcall())", "false\tattempt to call a nil value\nfalse\tattempt to call a number value\nfalse\tattempt to call a nil value\n"),
    Row("operator_places", "local t = {}\nprint(pcall(function()\n  return 1 +\n    t\nend))\nprint(pcall(function() return t .. 'x' end))\nprint(pcall(function() return #5 end))",
        "false\ta.lua:3: attempt to perform arithmetic on a table value\nfalse\ta.lua:6: attempt to concatenate a table value\nfalse\ta.lua:7: attempt to get length of a number value\n"),
    Row("compare_texts", "print(pcall(function() return 1 < 'x' end))\nprint(pcall(function() return {} <= {} end))\nprint(pcall(function() return 1 > 'x' end))",
        "false\ta.lua:1: attempt to compare number with string\nfalse\ta.lua:2: attempt to compare two table values\nfalse\ta.lua:3: attempt to compare string with number\n", lua=True),
    Row("index_texts", "local n\nprint(pcall(function() return n.x end))\nprint(pcall(function() n.x = 1 end))\nprint(pcall(function() n() end))",
        "false\ta.lua:2: attempt to index a nil value\nfalse\ta.lua:3: attempt to index a nil value\nfalse\ta.lua:4: attempt to call a nil value\n"),
    Row("nil_key", "local t = {}\nprint(pcall(function() t[nil] = 1 end))\nprint(pcall(function() return {[nil] = 1} end))\nprint(t[nil])",
        "false\ta.lua:2: table index is nil\nfalse\ta.lua:3: table index is nil\nnil\n", lua=True),
    Row("number_faults", "print(6/2, -7 % 3, 2^10)\nprint(pcall(function() return 7/2 end))\nprint(pcall(function() return 1/0 end))\nprint(pcall(function() return 99999999999999+1 end))",
        "3\t2\t1024\nfalse\ta.lua:2: number has no whole value\nfalse\ta.lua:3: number has no whole value\nfalse\ta.lua:4: number out of range\n"),
    Row("for_texts", "print(pcall(function() for i = {}, 1 do end end))\nprint(pcall(function() for i = 1, 'x', {} do end end))\nprint(pcall(function() for i = 1, 2, {} do end end))",
        "false\ta.lua:1: 'for' initial value must be a number\nfalse\ta.lua:2: 'for' limit must be a number\nfalse\ta.lua:3: 'for' step must be a number\n", lua=True),
    Row("object_end", "error({})", "", error("(error object is a table value)")),
    Row("number_end", "error(42)", "", error("42")),
    Row("text_end", "local x\nx = x + 1", "", error("a.lua:2: attempt to perform arithmetic on a nil value")),
    Row("library_place", "local function f()\n  return ('x'):rep({})\nend\nprint(pcall(f))\nprint(pcall(string.rep, 'x', {}))",
        "false\ta.lua:2: bad argument #2 to 'rep' (number expected, got table)\nfalse\tbad argument #2 to 'rep' (number expected, got table)\n"),
    Row("assert_plain", "print(pcall(assert, false))\nprint(pcall(assert, nil, 'm'))\nprint(select('#', assert(1, 2, 3)))", "false\tassertion failed!\nfalse\tm\n3\n", lua=True),
    Row("handler_error", "local t = setmetatable({}, {__index = function(t, k)\n  error('no ' .. k)\nend})\nprint(pcall(function() return t.x end))", "false\ta.lua:2: no x\n", lua=True),
    Row("error_through", "local function f() error('in', 1) end\nprint(pcall(function() local ok, e = pcall(f) error(e .. '+', 0) end))", "false\ta.lua:1: in+\n", lua=True),
    Row("overflow", "local function f() return 1 + f() end f()", "", error("a.lua:1: stack overflow"), steps=100000, shows="end"),
    Row("overflow_caught", "local function f() return 1 + f() end print(pcall(f))", "false\ta.lua:1: stack overflow\n", steps=100000, shows="output"),
    Row("iterator_place", "print(pcall(function()\n  for k in\n  5 do end\nend))", "false\ta.lua:2: attempt to call a number value\n"),
    Row("method_place", "local o = {}\nprint(pcall(function()\n  o:m\n  (1)\nend))".replace("o:m\n  (1)", "o:m(1)"), "false\ta.lua:3: attempt to call a nil value\n"),
])
GROUPS["Errors"][1][1].out = "false\ta.lua:2: x\nfalse\tfalse\tz\n"

GROUPS["Ticks"] = ("ticks: a statement, a turn of a loop and a call take one each", [
    Row("ten", "for i = 1, 3 do print(i) end", "1\n2\n3\n", steps=10, left=0),
    Row("nine", "for i = 1, 3 do print(i) end", "1\n2\n", STEPS, steps=9),
    Row("six", "local i = 0 while i < 2 do i = i + 1 end", "", steps=6, left=0),
    Row("five", "local i = 0 while i < 2 do i = i + 1 end", "", STEPS, steps=5),
    Row("one_print", "print(1)", "1\n", steps=2, left=0),
    Row("one_short", "print(1)", "", STEPS, steps=1),
    Row("for_ever", "while true do end", "", STEPS, steps=50, left=0),
    Row("nothing", "", "", steps=0, left=0),
    Row("pcall_ticks", "pcall(pcall, nil)", "", steps=3, left=0),
    Row("pcall_short", "print(pcall(function() while true do end end))", "", STEPS, steps=40),
    Row("handler_ticks", "local t = setmetatable({}, {__index = function() return 1 end})\nlocal x = t.y", "", steps=5, left=0),
    Row("handler_short", "local t = setmetatable({}, {__index = function() return 1 end})\nlocal x = t.y", "", STEPS, steps=4),
    Row("table_handler_ticks", "local t = setmetatable({}, {__index = {y = 1}})\nlocal x = t.y", "", steps=3, left=0),
    Row("call_event_ticks", "local t = setmetatable({}, {__call = function() end})\nt()", "", steps=4, left=0),
    Row("not_called_ticks", "print(pcall(function() local x = nil x() end))", "false\ta.lua:1: attempt to call a nil value\n", steps=6, left=0),
    Row("each_ticks", "for k in pairs({5}) do end", "", steps=5, left=0),
    Row("each_short", "for k in pairs({5}) do end", "", STEPS, steps=4),
    Row("repeat_ticks", "repeat until true", "", steps=2, left=0),
    Row("statement_ticks", "local function f() end do return f() end", "", steps=4, left=0),
    Row("tostring_ticks", "print(setmetatable({}, {__tostring = function() return 'x' end}))", "x\n", steps=5, left=0),
])

GROUPS["Library"] = ("functions of the library (manual §5)", [
    Row("format", "print(string.format('%05d/%-4s/%x', -42, 'ab', 255))", "-0042/ab  /ff\n", lua=True),
    Row("format_more", "print(string.format('%3d|%-3d|%03d|%X|%c%%|%5s|%s', 7, 7, 7, 255, 65, 'x', 12))", "  7|7  |007|FF|A%|    x|12\n", lua=True),
    Row("format_faults", "print(pcall(string.format, '%q', 1))\nprint(pcall(string.format, '%d', 'x'))\nprint(pcall(string.format, '%x', -1))\nprint(pcall(string.format, '%c', 256))\nprint(pcall(string.format, '%'))",
        "false\tinvalid format\nfalse\tbad argument #2 to 'format' (number expected, got string)\nfalse\tbad argument #2 to 'format' (not negative expected)\nfalse\tbad argument #2 to 'format' (0 to 255 expected)\nfalse\tinvalid format\n"),
    Row("numbers", "print(tonumber('zz', 36), select(-1, 1, 2), math.fmod(-7, 3))", "1295\t2\t-1\n", lua=True),
    Row("tonumber_more", "print(tonumber(' 0x10 '), tonumber('1e2'), tonumber('x'), tonumber(nil), tonumber('11', 2), tonumber('8', 8), tonumber(' ff ', 16))", "16\t100\tnil\tnil\t3\tnil\t255\n"),
    Row("sorted", "local t = {3, 1, 2}\ntable.sort(t)\nprint(table.concat(t, ','), ('x'):rep(3))", "1,2,3\txxx\n", lua=True),
    Row("sort_texts", "local t = {'b', 'a', 'ab', ''}\ntable.sort(t)\nprint(table.concat(t, ','))\nprint(pcall(table.sort, {1, 'a'}))\nprint(pcall(table.sort, {true}))\nprint(pcall(table.sort, {}, print))",
        ",a,ab,b\nfalse\t'sort' needs all numbers or all strings\nfalse\t'sort' needs all numbers or all strings\nfalse\t'sort' takes no function\n"),
    Row("no_patterns", "print(pcall(string.find, 'a', '%a'))\nprint(string.find('a+b', '+', 1, true))", "false\tpatterns are not available\n2\t2\n"),
    Row("found", "print(('hello'):find('l'), ('hello'):find('xyz'), ('hello'):find('', 10), ('hello'):find('l', -2))", "3\tnil\t6\t4\t4\n"),
    Row("subs", "local s = 'hello'\nprint(s:sub(2, 3), s:sub(-3), s:sub(2, -2), s:sub(4, 2), s:sub(-100, 100), s:byte(), s:byte(-1), s:byte(10))", "he\n"),
    Row("bytes", "print(string.char(72, 105), ('abc'):byte(1, -1))\nprint(pcall(string.char, 256))\nprint(('aBc'):upper(), ('aBc'):lower(), ('abc'):reverse(), ('ab'):rep(0) == '')",
        "Hi\t97\t98\t99\nfalse\tbad argument #1 to 'char' (0 to 255 expected)\nABC\tabc\tcba\ttrue\n"),
    Row("insertions", "local t = {1, 2, 3}\ntable.insert(t, 4) table.insert(t, 1, 0) table.insert(t, 9, 'far')\nprint(#t, table.concat(t, ' '), t[9])\nprint(pcall(table.insert, t, 0, 'x'))",
        "5\t0 1 2 3 4\tfar\nfalse\tbad argument #2 to 'insert' (position out of bounds)\n"),
    Row("removals", "local t = {1, 2, 3}\nprint(table.remove(t), table.remove(t, 1), #t, t[1])\nprint(select('#', table.remove({})), select('#', table.remove(t, 5)))", "3\t1\t1\t2\n0\t0\n", lua=True),
    Row("joins", "print(table.concat({1, 'a', 2}, '-'), table.concat({}), table.concat({1, 2, 3}, ',', 2, 3))\nprint(pcall(table.concat, {1, {}, 3}))",
        "1-a-2\t\t2,3\nfalse\tinvalid value (table) at index 2 in table for 'concat'\n", lua=False),
    Row("maxn", "print(table.maxn({1, 2, [10] = 3, x = 4}), table.maxn({}))", "10\t0\n", lua=True),
    Row("walks", "local t = {10, 20, 30}\nt.x = 1 t[2] = nil t.x = 5 t[2] = 7\nfor k, v in pairs(t) do print(k, v) end\nt[2] = nil print(#t)", "1\t10\n2\t7\n3\t30\nx\t5\n1\n"),
    Row("cleared_walk", "local t = {a = 1, b = 2, c = 3}\nlocal n = 0\nfor k in pairs(t) do t[k] = nil n = n + 1 end\nprint(n, next(t))", "3\tnil\n", lua=True),
    Row("next_faults", "print(next({}), next({5}), pcall(next, {}, 'x'))", "nil\t1\tfalse\tbad argument #2 to 'next' (no such key)\n"),
    Row("ipairs_stop", "local n = 0\nfor i, v in ipairs({1, 2, nil, 4}) do n = n + v end\nprint(n)", "3\n", lua=True),
    Row("selects", "print(select('#'), select('#', nil, nil), select(2, 'a', 'b', 'c'))\nprint(pcall(select, 0))\nprint(pcall(select, -2, 1))",
        "0\t2\tb\tc\nfalse\tbad argument #1 to 'select' (index out of range)\nfalse\tbad argument #1 to 'select' (index out of range)\n"),
    Row("unpacks", "print(unpack({1, 2, 3}))\nprint(unpack({1, nil, 3}, 1, 3))\nprint(unpack({1, 2}, 2))\nprint(pcall(unpack, {}, 1, 1000001))", "1\t2\t3\n1\tnil\t3\n2\nfalse\ttoo many values\n"),
    Row("maths", "print(math.abs(-5), math.ceil(3), math.floor(-3), math.max(1, 3, 2), math.min(2, '1'), math.pow(2, 5), math.fmod(7, -3))\nprint(pcall(math.fmod, 1, 0))\nprint(pcall(math.max))",
        "5\t3\t-3\t3\t1\t32\t1\nfalse\tnumber has no whole value\nfalse\tbad argument #1 to 'max' (number expected, got nil)\n"),
    Row("types", "print(type(nil), type(1), type('x'), type({}), type(print), type(type), type())", "nil\tnumber\tstring\ttable\tfunction\tfunction\tnil\n"),
    Row("absent", "print(tostring(), tonumber(), rawequal(), collectgarbage(), _VERSION)\nlocal t = setmetatable({}, {})\nprint(getmetatable(setmetatable(t)), xpcall, os)", "nil\tnil\ttrue\t0\tLua 5.1\nnil\tnil\tnil\n"),
    Row("concat_numbers", "print(1 .. 2, '10' + 5, '3' * '4', -'2', 10 .. '')", "12\t15\t12\t-2\t10\n", lua=True),
    Row("text_order", "print('a' < 'b', 'Z' < 'a', 'a' < 'aa', '' < 'a', 'b' <= 'b')", "true\ttrue\ttrue\ttrue\ttrue\n", lua=True),
    Row("too_long", "print(pcall(string.rep, 'ab', 8388609))\nprint(#('x'):rep(0), pcall(string.rep))", "false\tstring too long\n0\tfalse\tbad argument #1 to 'rep' (string expected, got nil)\n"),
    Row("remainders", "print(7 % 3, -7 % 3, 7 % -3, -7 % -3, 2 ^ 0, 0 ^ 0)", "1\t2\t-2\t-1\t1\t1\n", lua=True),
])
GROUPS["Library"][1][9].out = "el\tllo\tell\t\thello\t104\t111\n"

C1 = "Reply.channel 1"
NEW = "Ask.new_channel"


def value(n):
    return "Reply.value (Message.num (pos %d))" % n


GROUPS["Channels"] = ("asks of Channels and their replies (LÖVE wiki, `Channel`)", [
    Row("counts", "local c = love.thread.newChannel()\nprint(c:push(7))\nprint(c:getCount(), c:hasRead(1), c:pop(), c:hasRead(1), c:pop())", "1\n1\tfalse\t7\ttrue\tnil\n",
        replies=[C1, "Reply.id 1", "Reply.number 1", "Reply.flag false", value(7), "Reply.flag true", "Reply.nothing"],
        asks=[NEW, "Ask.push 1 (Message.num (pos 7))", "Ask.count 1", "Ask.has_read 1 (pos 1)", "Ask.pop 1", "Ask.has_read 1 (pos 1)", "Ask.pop 1"]),
    Row("first_ask", "c = love.thread.newChannel()", "", "waits Ask.new_channel", asks=[]),
    Row("after_reply", "c = love.thread.newChannel()", "", replies=[C1], asks=[NEW]),
    Row("clears", "local c = love.thread.newChannel()\nc:push('a') c:push('b') c:push('c')\nc:clear()\nprint(c:hasRead(3), c:getCount(), c:push('d'))", "true\t0\t4\n",
        replies=[C1, "Reply.id 1", "Reply.id 2", "Reply.id 3", "Reply.done", "Reply.flag true", "Reply.number 0", "Reply.id 4"]),
    Row("odd_ids", "local c = love.thread.newChannel()\nc:push(7) c:pop()\nprint(c:hasRead(0), c:hasRead(-1), c:hasRead(9))", "false\tfalse\tfalse\n",
        replies=[C1, "Reply.id 1", value(7), "Reply.flag false", "Reply.flag false", "Reply.flag false"],
        asks=[NEW, "Ask.push 1 (Message.num (pos 7))", "Ask.pop 1", "Ask.has_read 1 (pos 0)", "Ask.has_read 1 (negsuc 0)", "Ask.has_read 1 (pos 9)"]),
    Row("nil_message", "local c = love.thread.newChannel()\nc:push(nil)\nprint(c:getCount(), c:pop(), c:getCount())", "1\tnil\t0\n",
        replies=[C1, "Reply.id 1", "Reply.number 1", "Reply.value Message.nil", "Reply.number 0"], asks=[NEW, "Ask.push 1 Message.nil", "Ask.count 1", "Ask.pop 1", "Ask.count 1"]),
    Row("copied", "local s = {v = 1}\nlocal t = setmetatable({a = s, b = s}, {__index = function() return 9 end})\nlocal c = love.thread.newChannel()\nc:push(t)\ns.v = 2\nlocal r = c:pop()\n"
        "print(r.a.v, r.b.v, r.a == r.b, r.zzz, getmetatable(r))", "1\t1\tfalse\tnil\tnil\n",
        replies=[C1, "Reply.id 1", "Reply.value pair_message"], asks=[NEW, "Ask.push 1 pair_message", "Ask.pop 1"]),
    Row("not_sent", "local c = love.thread.newChannel()\nlocal t = {} t.me = t\nprint(pcall(c.push, c, t))\nprint(pcall(c.push, c, {print}))\nprint(pcall(c.push, c, {[{}] = 1}))\nprint(c:getCount())",
        "false\tcannot send a table that holds itself\nfalse\tcannot send a function value\nfalse\tcannot send a table with a table key\n0\n",
        replies=[C1, "Reply.number 0"], asks=[NEW, "Ask.count 1"]),
    Row("sections", "local c = love.thread.newChannel()\nprint(pcall(function()\nc:performAtomic(function(c)\nc:performAtomic(function(c) c:push(1) error('boom') end)\nend)\nend))\nprint(c:push(2), c:getCount())",
        "false\ta.lua:4: boom\n2\t2\n", replies=[C1, "Reply.done", "Reply.done", "Reply.id 1", "Reply.done", "Reply.done", "Reply.id 2", "Reply.number 2"],
        asks=[NEW, "Ask.enter 1", "Ask.enter 1", "Ask.push 1 (Message.num (pos 1))", "Ask.leave 1", "Ask.leave 1", "Ask.push 1 (Message.num (pos 2))", "Ask.count 1"]),
    Row("waits_inside", "local c = love.thread.newChannel()\nc:performAtomic(function(c)\nprint(pcall(c.demand, c))\nprint(c:push(5))\nend)\nprint(c:pop())",
        "false\twould wait inside its own performAtomic\n1\n5\n", replies=[C1, "Reply.done", "Reply.refused WouldWaitInside", "Reply.id 1", "Reply.done", value(5)],
        asks=[NEW, "Ask.enter 1", "Ask.demand 1 None", "Ask.push 1 (Message.num (pos 5))", "Ask.leave 1", "Ask.pop 1"]),
    Row("section_results", "local c = love.thread.newChannel()\nprint(c:performAtomic(function(d, a) return d == c, a end, 3))\nprint(pcall(c.performAtomic, c, 5))", "true\t3\nfalse\tbad argument #1 to 'performAtomic' (function expected, got number)\n",
        replies=[C1, "Reply.done", "Reply.done"], asks=[NEW, "Ask.enter 1", "Ask.leave 1"]),
    Row("refused_push", "local c = love.thread.newChannel()\nc:push(1)", "", error("a.lua:2: channel is full"), replies=[C1, "Reply.refused Full"]),
    Row("demanding", "print(1)\nlove.thread.newChannel():demand()", "1\n", "waits (Ask.demand 1 None)", replies=[C1], asks=[NEW]),
    Row("timeouts", "local c = love.thread.newChannel()\nprint(c:demand(2))\nprint(c:supply(5, 1), c:getCount(), c:pop())\nprint(pcall(c.demand, c, -1))",
        "nil\nfalse\t1\t5\nfalse\tbad argument #1 to 'demand' (0 to 1000000 expected)\n", replies=[C1, "Reply.nothing", "Reply.id 1", "Reply.flag false", "Reply.number 1", value(5)],
        asks=[NEW, "Ask.demand 1 (Some 2)", "Ask.supply 1 (Message.num (pos 5))", "Ask.await 1 1 (Some 1)", "Ask.count 1", "Ask.pop 1"]),
    Row("supplied", "local c = love.thread.newChannel()\nprint(c:supply('x'))", "true\n", replies=[C1, "Reply.id 4", "Reply.flag true"],
        asks=[NEW, "Ask.supply 1 (Message.str (codes \"x\"))", "Ask.await 1 4 None"]),
    Row("data_values", "local c = love.thread.newChannel()\nc:push(love.data.newByteData('hello'))\nlocal e = c:pop()\nprint(e:getString(), e:getSize(), love.data.newDataView(e, 1, 3):getString())\n"
        "print(e:type(), e:typeOf('Data'), e.getFilename, pcall(love.data.newDataView, e, 6, 0))", "hello\t5\tell\nByteData\ttrue\tnil\tfalse\tbad argument #2 to 'newDataView' (out of bounds)\n",
        replies=[C1, "Reply.id 1", "Reply.value hello_message"], asks=[NEW, "Ask.push 1 hello_message", "Ask.pop 1"]),
    Row("names", "local c = love.thread.getChannel('x')\nprint(c == love.thread.getChannel('x'), c, c:typeOf('Object'), c.nothing)", "true\tChannel\ttrue\tnil\n", replies=[C1, C1],
        asks=["Ask.name (codes \"x\")", "Ask.name (codes \"x\")"]),
    Row("deep_tables", "local c, t = love.thread.newChannel(), {}\nfor i = 1, 127 do t = {t} end\nprint(pcall(c.push, c, t))\nt = {t}\nprint(pcall(c.push, c, t))", "true\t1\nfalse\tcannot send tables nested over 128 deep\n",
        replies=[C1, "Reply.id 1"]),
    Row("bad_objects", "local c = love.thread.newChannel()\nprint(pcall(c.push))\nprint(pcall(c.hasRead, c, 'x'))", "false\tbad argument #0 to 'push' (Channel expected, got nil)\nfalse\tbad argument #1 to 'hasRead' (number expected, got string)\n", replies=[C1]),
])

FILE = "record { path = codes \"%s\"; bytes = codes \"%s\"; code = %s }"

GROUPS["Games"] = ("modules, files, threads and events (LÖVE wiki, `love`)", [
    Row("modules", "print(require('m'), require('m'))\nprint(pcall(require, 'none'))\nprint(require('sub.x'))\nprint(require('love.thread') == love.thread)", "m\tm\n5\t5\nfalse\tmodule 'none' not found\ntrue\ntrue\n",
        files=[("m.lua", "local name = ...\nprint(name, ...)\nreturn 5"), ("sub/x/init.lua", "")]),
    Row("module_circle", "print(pcall(require, 'a'))\nprint(pcall(require, 'a'))", "false\tb.lua:1: loop or previous error loading module 'a'\nfalse\tloop or previous error loading module 'a'\n",
        file="main.lua", files=[("a.lua", "require('b')"), ("b.lua", "require('a')")]),
    Row("faulty_module", "print(pcall(require, 'bad'))\nrequire('bad')", "false\tbad.lua:2: unexpected symbol\n", error("bad.lua:2: unexpected symbol"), file="main.lua", files=[("bad.lua", None, "faulty (codes \"bad.lua:2: unexpected symbol\")")]),
    Row("reads", "print(love.filesystem.read('t.txt'))\nprint(love.filesystem.read('none'))\nlocal f = love.filesystem.newFileData('t.txt')\nprint(f:getFilename(), f:getSize(), f)\nprint(love.filesystem.newFileData('ab', 'n'):getString())",
        "hey\t3\nnil\tno such file: none\nt.txt\t3\tFileData\nab\n", file="main.lua", files=[("t.txt", "hey", "not_lua")]),
    Row("threads", "local t = love.thread.newThread('w.lua')\nprint(t:start(1, 'x'), t:start(), t:isRunning(), t:wait(), t:getError(), t)\nprint(pcall(love.thread.newThread, 'none.lua'))\nlove.thread.newThread('local x\\n')",
        "true\tfalse\ttrue\tnil\tnil\tThread\nfalse\tno such file: none.lua\n", file="main.lua", files=[("w.lua", "")],
        replies=["Reply.thread 1", "Reply.flag true", "Reply.flag false", "Reply.flag true", "Reply.done", "Reply.nothing", "Reply.thread 2"],
        asks=["Ask.new_thread (Source.file (codes \"w.lua\"))", "Ask.start 1 (Message.num (pos 1) ∷ Message.str (codes \"x\") ∷ [])", "Ask.start 1 []", "Ask.is_running 1", "Ask.wait_for 1", "Ask.error_of 1",
              "Ask.new_thread (Source.code (codes \"local x\\n\"))"]),
    Row("too_many", "local t = love.thread.newThread('w.lua')\nprint(pcall(t.start, t))\nt:start()", "false\ttoo many threads are running: 1\n", error("main.lua:3: the game has ended"), file="main.lua", files=[("w.lua", "")],
        replies=["Reply.thread 1", "Reply.refused (TooManyRunning 1)", "Reply.refused (GameEnded 4)"]),
    Row("thread_state", "print(love.event, ...)\nprint(require('love.event') == love.event)\nlove.event.push('done', 5)\nprint(pcall(love.event.poll()))", "nil\t7\ttrue\ntrue\nfalse\tevents are polled by the main state\n",
        state=1, args=["Message.num (pos 7)", "Message.flag true"], replies=["Reply.done"], asks=["Ask.event_push (codes \"done\") (Message.num (pos 5) ∷ [])"]),
    Row("events", "for name, a, b in love.event.poll() do print(name, a, b) end\nlove.event.clear()\nprint(love.event.pump())",
        "go\t1\tnil\nthreaderror\tThread\tboom\n\n", replies=["Reply.event 1 2 (Event.user (codes \"go\") (Message.num (pos 1) ∷ []))", "Reply.event 1 4 (Event.thread_error 3 (codes \"boom\"))", "Reply.nothing",
        "Reply.event 1 5 (Event.user (codes \"x\") [])", "Reply.nothing"]),
    Row("clear_ticks", "love.event.clear()", "", steps=4, left=0, replies=["Reply.event 1 2 (Event.user (codes \"x\") [])", "Reply.event 1 3 (Event.user (codes \"x\") [])", "Reply.nothing"],
        asks=["Ask.event_poll", "Ask.event_poll", "Ask.event_poll"]),
    Row("quits", BOOT, "false\tbad argument #1 to 'quit' (0 to 63 expected)\nupdate\t1\nquit\t1\nupdate\t1\nquit\t2\n", number(3), file="boot", args=["Message.num (pos 60)"],
        files=[("main.lua", "local n = 0\nfunction love.quit() n = n + 1 print('quit', n) return n == 1 end\nfunction love.update(dt) print('update', dt) love.event.quit(3) end\nprint(pcall(love.event.quit, 64))")],
        replies=["Reply.nothing", "Reply.done", "quit_event", "Reply.nothing", "Reply.done", "quit_event"]),
    Row("budget", BOOT, "1\tout of steps\n", number(0), steps=100, left=72, file="boot", args=["Message.num (pos 0)"],
        files=[("main.lua", "local c = love.thread.getChannel('c')\nlocal t = love.thread.newThread('w.lua')\nt:start()\nc:demand()\nt:wait()\nc:push(1)\nprint(c:pop(), t:getError())"), ("w.lua", "")],
        replies=[C1, "Reply.thread 1", "Reply.flag true", "Reply.value (Message.str (codes \"go\"))", "Reply.done", "Reply.id 2", value(1), "Reply.words (codes \"out of steps\")"]),
    Row("alone_budget", "local c = love.thread.getChannel('c')\nlocal t = love.thread.newThread('w.lua')\nt:start()\nc:demand()\nt:wait()\nc:push(1)\nprint(c:pop(), t:getError())", "1\tout of steps\n", steps=16, left=0, file="main.lua", files=[("w.lua", "")],
        replies=[C1, "Reply.thread 1", "Reply.flag true", "Reply.value (Message.str (codes \"go\"))", "Reply.done", "Reply.id 2", value(1), "Reply.words (codes \"out of steps\")"]),
])
