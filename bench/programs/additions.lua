-- A hundred million additions in one loop.
local sum = 0
for i = 1, 100000000 do
  sum = sum + i
end
print("sum " .. sum)
