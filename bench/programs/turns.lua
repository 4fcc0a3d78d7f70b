-- Sixteen tasks that take turns, 100,000 each.
local turns = 0

local function take_turns()
  for turn = 1, 100000 do
    turns = turns + 1
    coroutine.yield(true)
  end
  print("turns " .. turns)
end

local tasks = {}
for number = 1, 16 do
  tasks[number] = coroutine.wrap(take_turns)
end
while #tasks > 0 do
  for number = #tasks, 1, -1 do
    if not tasks[number]() then
      table.remove(tasks, number)
    end
  end
end
