-- The same as long.upc.
local x = 88172645463325252
local s = 0
for i = 0, N - 1 do
  x = x ~ (x << 13)
  x = x ~ (x >> 7)
  x = x ~ (x << 17)
  s = s + math.tointeger(((x >> 1) % 500) * 2 + (x & 1))
end
print(s % 1000000)
