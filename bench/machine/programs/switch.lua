-- The same as switch.upc.
local s = 0
for i = 0, N - 1 do
  local c = i % 6
  if c == 0 then
    s = s + 1
  elseif c == 1 then
    s = s + i
  elseif c == 2 then
    s = s - 3
  elseif c == 3 then
    s = s ~ i
  elseif c == 4 then
    s = s // 2
  else
    s = s + 7
  end
  if s > 100000 then
    s = s - 100000
  end
end
print(s)
