pass
if True:
    pass
n = 2
while n:
    n -= 1
    pass
print(n)
