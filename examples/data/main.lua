-- Data of bytes, and a view of a part of them.
local bytes = love.data.newByteData("hello")
local part = love.data.newDataView(bytes, 1, 3)
print(bytes:getSize(), part:getString(), part:type())
