-- A thousand numbers that look like random ones, sorted by insertion, 40 times.
local numbers = {}
local seed = 1

local function fill()
  for i = 1, 1000 do
    seed = (seed * 1103515245 + 12345) % 2147483648
    numbers[i] = seed
  end
end

local function sort()
  for i = 2, 1000 do
    local number = numbers[i]
    local place = i
    while place > 1 and numbers[place - 1] > number do
      numbers[place] = numbers[place - 1]
      place = place - 1
    end
    numbers[place] = number
  end
end

for round = 1, 40 do
  fill()
  sort()
end
print("least " .. numbers[1])
print("middle " .. numbers[500])
print("greatest " .. numbers[1000])
