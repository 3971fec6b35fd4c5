-- A class by a metatable.
local Account = {}
Account.__index = Account

function Account.new(balance)
  return setmetatable({balance = balance}, Account)
end

function Account:deposit(amount)
  self.balance = self.balance + amount
end

Account.__tostring = function(account)
  return "account of " .. account.balance
end

local account = Account.new(10)
account:deposit(32)
print(account)
