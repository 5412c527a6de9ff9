a = b = c = 2 + 3
print(a)
print(b)
print(c)
b = a = b * 2
print(a + b)
