-- The workloads of src/ in Lua, each with its least processor time of several runs, in nanoseconds.
local count, runs = tonumber(arg[1]), tonumber(arg[2])
local floor, clock = math.floor, os.clock

local texts = {}
for i = 1, count do texts[i] = "t" .. i end

local orders = {
  { "rising", function() local t, n = {}, count
      local a = clock(); for i = 1, n do t[i] = i end
      local b = clock(); local found = 0
      for i = 1, n do if t[i] then found = found + 1 end end
      return t, a, b, clock() end },
  { "falling", function() local t, n = {}, count
      local a = clock(); for i = n, 1, -1 do t[i] = i end
      local b = clock(); local found = 0
      for i = n, 1, -1 do if t[i] then found = found + 1 end end
      return t, a, b, clock() end },
  { "sparse", function() local t, n = {}, count
      local a = clock(); for i = 1, n do t[i * 1000003] = i end
      local b = clock(); local found = 0
      for i = 1, n do if t[i * 1000003] then found = found + 1 end end
      return t, a, b, clock() end },
  { "texts", function() local t, n, texts = {}, count, texts
      local a = clock(); for i = 1, n do t[texts[i]] = i end
      local b = clock(); local found = 0
      for i = 1, n do if t[texts[i]] then found = found + 1 end end
      return t, a, b, clock() end },
}

local function least(old, new) return (old == nil or new < old) and new or old end
local function show(name, seconds) print(string.format("%s %.0f", name, seconds * 1e9)) end

for _, order in ipairs(orders) do
  local fill, read, walk
  for _ = 1, runs do
    local t, a, b, c = order[2]()
    local found = 0
    local key = next(t)
    while key ~= nil do found = found + 1; key = next(t, key) end
    local d = clock()
    assert(found == count)
    fill, read, walk = least(fill, b - a), least(read, c - b), least(walk, d - c)
    t = nil; collectgarbage()
  end
  show(order[1] .. "-fill", fill); show(order[1] .. "-read", read); show(order[1] .. "-walk", walk)
end

local refill, queue, small
for _ = 1, runs do
  local t = {}
  for i = 1, count do t[i] = i end
  local a, seed = clock(), 1
  for _ = 1, 1000 do
    seed = seed * 16807 % 2147483647
    local slot = seed % count + 1
    t[slot] = nil
    t[slot] = slot
  end
  refill = least(refill, clock() - a)

  t = {}
  a = clock()
  for i = 1, count do
    t[i] = i
    if i > 100 then t[i - 100] = nil end
  end
  queue = least(queue, clock() - a)

  t = nil; collectgarbage()
  local tables = {}
  a = clock()
  for i = 1, floor(count / 10) do tables[i] = { a = i, b = i, c = i, d = i } end
  local found = 0
  for i = 1, #tables do
    local t = tables[i]
    if t.a then found = found + 1 end
    if t.b then found = found + 1 end
    if t.c then found = found + 1 end
    if t.d then found = found + 1 end
  end
  small = least(small, clock() - a)
  tables = nil; collectgarbage()
end
show("refill", refill); show("queue", queue); show("small", small)
