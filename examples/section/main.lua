-- An error inside a section leaves it: the Channel is free again.
local channel = love.thread.newChannel()
print(pcall(function()
  channel:performAtomic(function(held)
    held:push("inside")
    error("boom")
  end)
end))
print(channel:pop(), channel:getCount())
