-- The same as loop.upc.
local s = 0
for i = 0, N - 1 do
  s = (s + i * 3) % 1000000
end
print(s)
