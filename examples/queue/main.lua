-- First in, first out: messages of all kinds wait in a Channel.
local jobs = love.thread.getChannel("jobs")
jobs:push("read")
jobs:push(7)
jobs:push({name = "write", sizes = {1, 2, 3}})
print(jobs:getCount(), jobs:peek())
while jobs:getCount() > 0 do
  local job = jobs:pop()
  if type(job) == "table" then
    print(job.name, #job.sizes)
  else
    print(job)
  end
end
print(jobs:pop())
