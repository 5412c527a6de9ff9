a = 1071
b = 462
while b:
    r = a % b
    a = b
    b = r
print(a)
