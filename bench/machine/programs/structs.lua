-- The same as structs.upc.
local t = {}
for i = 0, 127 do
  t[i] = { key = 0, left = 0, right = 0 }
end
local count = 0
local function insert(key)
  local at = 0
  if count == 0 then
    t[0].key = key
    t[0].left = -1
    t[0].right = -1
    count = 1
    return
  end
  while true do
    if key == t[at].key then
      return
    end
    if key < t[at].key then
      if t[at].left < 0 then
        t[at].left = count
        break
      end
      at = t[at].left
    else
      if t[at].right < 0 then
        t[at].right = count
        break
      end
      at = t[at].right
    end
  end
  t[count].key = key
  t[count].left = -1
  t[count].right = -1
  count = count + 1
end
local s = 0
for n = 0, N - 1 do
  count = 0
  for i = 0, 99 do
    insert((i * 37 + n) % 100)
  end
  s = (s + count) % 1000
end
print(s)
