-- The same as pointers.upc, by an index.
local a = {}
local function sum(p, n)
  local s = 0
  local q = 0
  while q < n do
    s = s + p[q]
    q = q + 1
  end
  return s
end
for i = 0, 99 do
  a[i] = i
end
local s = 0
for i = 0, N - 1 do
  s = (s + sum(a, 100)) % 10000
end
print(s)
