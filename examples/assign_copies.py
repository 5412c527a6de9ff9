x = 1
y = x
x = 2
print(x)
print(y)
