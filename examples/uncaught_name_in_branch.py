x = 0
if x:
    y = 1
print(x)
y += 1
