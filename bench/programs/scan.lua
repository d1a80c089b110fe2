local s = "abcdefgh"
while #s < 65536 do s = s .. s end
local sum = 0
for turn = 1, 100 do
  for i = 1, 65536 do sum = sum + string.byte(s, i) end
end
print(sum)
