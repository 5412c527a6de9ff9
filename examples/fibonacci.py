a = 0
b = 1
n = 0
while n < 100:
    c = a + b
    a = b
    b = c
    n += 1
print(a)
