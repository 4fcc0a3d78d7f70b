-- The first 30 Fibonacci numbers, by recursion.
local function fibonacci(n)
  if n <= 2 then
    return 1
  end
  return fibonacci(n - 1) + fibonacci(n - 2)
end

for n = 1, 30 do
  print("number " .. fibonacci(n))
end
