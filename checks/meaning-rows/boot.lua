local frames = ...
love.handlers = {
  quit = function() end,
  threaderror = function(thread, text)
    if love.threaderror then return love.threaderror(thread, text) end
  end,
}
function love.run()
  if love.load then love.load({}) end
  return function()
    for name, a, b, c, d, e, f in love.event.poll() do
      if name == "quit" then
        if not love.quit or not love.quit() then return a or 0 end
      elseif love.handlers[name] then
        love.handlers[name](a, b, c, d, e, f)
      end
    end
    if love.update then love.update(1) end
  end
end
require("main")
local turn = love.run()
for frame = 1, frames do
  local status = turn()
  if status ~= nil then return status end
end
return 0
