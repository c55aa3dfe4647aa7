-- The same as loop.upc.
local a = {}
for i = 0, 99 do a[i] = 0 end
local x = 0
for i = 0, 1999999 do
  a[i % 100] = a[i * 7 % 100] + i % 12
  if a[i % 100] > 1000 then
    a[i % 100] = a[i % 100] - 900
  end
  x = x + a[i % 100] * 3 - x // 4
end
print(x)
