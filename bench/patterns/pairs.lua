-- Writes random pairs of pattern and text in the syntax that this project shares with lua5.1, and beside each what
-- string.find answers.
--
-- usage: lua5.1 pairs.lua COUNT SEED PAIRS ANSWERS
local count, seed = tonumber(arg[1]), tonumber(arg[2])
local pairs_file, answers_file = assert(io.open(arg[3], "w")), assert(io.open(arg[4], "w"))
math.randomseed(seed)
local random = math.random

local function one_of(list) return list[random(#list)] end

local letters = {"a", "b", "c", "x"}
local named = {"%a", "%d", "%l", "%s", "%u", "%w", "%x", "%p", "%c", "%A", "%D", "%S", "%W", "%z", "%Z"}
local plain = {"a", "b", "c", "x", "1", " ", "%.", "%%", "%(", "%]", ".", "-", "^", "]", "\200", "%-"}

local function set()
    local out = one_of({"[", "[^"}) .. one_of({"", "", "]"})
    for _ = 1, random(3) do
        out = out .. one_of({"a", "b", "1", "a-c", "0-9", "x-x", "c-a", "%a", "%d", "%s", "%]", "%%", ".", "*", "(", "\128-\255"})
    end
    -- A dash at the end makes no range.
    return out .. one_of({"", "", "-"}) .. "]"
end

local function class()
    local kind = random(10)
    if kind <= 4 then return one_of(letters) end
    if kind <= 5 then return one_of(plain) end
    if kind <= 7 then return one_of(named) end
    if kind <= 8 then return "." end
    return set()
end

-- A pattern of so many items, in which captures open and close, and closed ones are asked for again.
local function pattern(items)
    local out = one_of({"", "", "", "^"})
    local open, closed, captures = {}, {}, 0
    for _ = 1, items do
        local kind = random(20)
        if kind <= 12 then
            out = out .. class() .. one_of({"", "", "*", "+", "-", "?"})
        elseif kind <= 15 and captures < 5 then
            captures = captures + 1
            if random(4) == 1 then
                out = out .. "()"
            else
                out = out .. "("
                open[#open + 1] = captures
            end
        elseif kind <= 17 and #open > 0 then
            closed[#closed + 1] = table.remove(open)
            -- `()` would be a capture of the place.
            out = out .. (out:sub(-1) == "(" and "a?)" or ")")
        elseif kind == 18 and #closed > 0 then
            out = out .. "%" .. one_of(closed)
        elseif kind == 19 then
            out = out .. one_of({"%b()", "%bab", "%bxx"})
        end
    end
    for _ = 1, #open do
        out = out .. (out:sub(-1) == "(" and "a?)" or ")")
    end
    return out .. one_of({"", "", "", "$"})
end

local function text(length)
    local out = {}
    for i = 1, length do
        out[i] = one_of({"a", "a", "b", "b", "c", "x", "1", "9", " ", "(", ")", ".", "-", "%", "A", "\0", "\200", "]"})
    end
    return table.concat(out)
end

local function hex(s)
    return "x" .. s:gsub(".", function(c) return ("%02x"):format(c:byte()) end)
end

local function answer(found)
    if found[1] == nil then return "nil" end
    local out = {found[1], found[2]}
    for i = 3, #found do
        out[i] = type(found[i]) == "number" and found[i] or hex(found[i])
    end
    return table.concat(out, " ")
end

local none = 0
for _ = 1, count do
    local p, s
    local found
    repeat
        p, s = pattern(random(0, 7)), text(random(0, 14))
        found = {pcall(string.find, s, p, 1)}
    until found[1]
    local from = random(0, #s)
    found = {string.find(s, p, from + 1)}
    if found[1] == nil then none = none + 1 end
    pairs_file:write(hex(p), " ", hex(s), " ", from, "\n")
    answers_file:write(answer(found), "\n")
end
pairs_file:close()
answers_file:close()
print(("%d pairs, %d of them with no match"):format(count, none))
