-- The same as calls.upc.
local function add(a, b)
  return a + b
end
local function twice(x)
  return add(x, x) % 1001
end
local s = 1
for i = 0, N - 1 do
  s = add(twice(s), i) % 1000
end
print(s)
