local s = ""
for i = 1, 65536 do
  s = s .. "x"
end
print(#s)
