-- The same as mat.upc.
local a, b, c = {}, {}, {}
for i = 0, 31 do
  a[i], b[i], c[i] = {}, {}, {}
  for j = 0, 31 do
    a[i][j] = i + j
    b[i][j] = i - j
  end
end
local fmod = math.fmod
for n = 0, N - 1 do
  for i = 0, 31 do
    for j = 0, 31 do
      local t = 0
      for k = 0, 31 do
        t = t + fmod(a[i][k] * b[k][j], 6)
      end
      c[i][j] = t
    end
  end
end
local s = 0
for i = 0, 31 do
  for j = 0, 31 do
    s = s + fmod(c[i][j], 12)
  end
end
print(string.format("%d", s))
