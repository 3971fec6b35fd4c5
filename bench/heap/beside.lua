-- The workloads of src/ in Lua, each with its least processor time of several runs, in nanoseconds.
local count, runs = tonumber(arg[1]), tonumber(arg[2])
local floor, clock = math.floor, os.clock

local least = {}
local function note(name, seconds)
  local ns = seconds * 1e9
  if least[name] == nil or ns < least[name] then least[name] = ns end
end

-- Pieces of ten numbers each, so that no string of 16 bytes is known before it is cut out.
local pieces = {}
for i = 0, count - 1, 10 do
  local piece = {}
  for j = i, math.min(i + 9, count - 1) do piece[#piece + 1] = string.format("%016d", j) end
  pieces[#pieces + 1] = table.concat(piece)
end
local digits = table.concat(pieces)
pieces = nil
collectgarbage()

for _ = 1, runs do
  local names, again, sub = {}, {}, string.sub
  local a = clock()
  for i = 1, count do names[i] = sub(digits, i * 16 - 15, i * 16) end
  local b = clock()
  note("intern", b - a)
  for i = 1, count do again[i] = sub(digits, i * 16 - 15, i * 16) end
  note("intern-known", clock() - b)

  local keys = {}
  for i = 1, count do keys[i] = i end
  local t = {}
  a = clock()
  for i = 1, count do t[keys[i]] = true end
  b = clock()
  local found = 0
  for i = 1, count do if t[keys[i]] ~= nil then found = found + 1 end end
  note("numbers-fill", b - a); note("numbers-read", clock() - b)
  assert(found == count)

  t = {}
  a = clock()
  for i = 1, count do t[names[i]] = true end
  b = clock()
  found = 0
  for i = 1, count do if t[names[i]] ~= nil then found = found + 1 end end
  note("strings-fill", b - a); note("strings-read", clock() - b)
  assert(found == count)

  local tables, few = {}, math.min(4, count)
  for i = 1, floor(count / 10) do tables[i] = {} end
  a = clock()
  for i = 1, #tables do
    local t = tables[i]
    for j = 1, few do t[names[j]] = true end
  end
  b = clock()
  found = 0
  for i = 1, #tables do
    local t = tables[i]
    for j = 1, few do if t[names[j]] ~= nil then found = found + 1 end end
  end
  note("fields-write", b - a); note("fields-read", clock() - b)
  assert(found == #tables * few)
  names, again, keys, t, tables = nil, nil, nil, nil, nil
  collectgarbage()
end

for _, name in ipairs { "intern", "intern-known", "numbers-fill", "numbers-read", "strings-fill", "strings-read",
    "fields-write", "fields-read" } do
  print(string.format("%s %.0f", name, least[name]))
end
