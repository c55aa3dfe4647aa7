-- The same as sort.upc.
local a = {}
local s = 0
for n = 0, N - 1 do
  for i = 0, 199 do
    a[i] = (i * 7919 + n) % 1000
  end
  for i = 1, 199 do
    local t = a[i]
    local j = i - 1
    while j >= 0 and a[j] > t do
      a[j + 1] = a[j]
      j = j - 1
    end
    a[j + 1] = t
  end
  s = (s + a[100]) % 10000
end
print(s)
