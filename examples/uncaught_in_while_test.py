n = 3
while 12 // n:
    print(n)
    n -= 1
