-- The primes up to 1,000 by the sieve of Eratosthenes, 3,000 times.
local is_crossed = {}

local function count_primes()
  local count = 0
  for n = 2, 1000 do
    is_crossed[n] = false
  end
  for n = 2, 1000 do
    if not is_crossed[n] then
      count = count + 1
      for multiple = n * n, 1000, n do
        is_crossed[multiple] = true
      end
    end
  end
  return count
end

local count = 0
for round = 1, 3000 do
  count = count_primes()
end
print("primes " .. count)
