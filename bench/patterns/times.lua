-- How long lua5.1's string.find takes on the texts of src/texts.rt: the least processor time of several runs, in
-- microseconds, as the program beside it writes its own.
local MIB = 1048576
local function repeated(piece, size) return piece:rep(size / #piece) end
local shapes = {
    {"%w+", function(size) return repeated("abcdefgh01234567", size) end},
    {".-x", function(size) return repeated("abcdefghijklmnop", size):sub(1, -2) .. "x" end},
    {"^%s*(.-)%s*$", function(size)
        return (" "):rep(64) .. repeated("words of a text ", size):sub(65, -65) .. (" "):rep(64)
    end},
}
for _, shape in ipairs(shapes) do
    for _, size in ipairs({{1, 20}, {4, 10}, {16, 5}}) do
        local text = shape[2](size[1] * MIB)
        local least, last = math.huge, nil
        for _ = 1, size[2] do
            local start = os.clock()
            local _, e = text:find(shape[1])
            least = math.min(least, os.clock() - start)
            last = e
        end
        print(("%s %d %d %d"):format(shape[1], size[1], least * 1e6, last or 0))
    end
end
