-- The same as bytes.upc.
local s, d = {}, {}
for i = 0, 254 do
  s[i] = 97 + i % 26
end
s[255] = 0
local h = 0
for n = 0, N - 1 do
  local i = 0
  while s[i] ~= 0 do
    d[i] = s[i]
    i = i + 1
  end
  d[i] = 0
  i = 0
  while d[i] ~= 0 do
    h = (h * 31 + d[i]) & 0xffffffff
    i = i + 1
  end
end
print(h)
