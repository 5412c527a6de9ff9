n = 0
while n < 5:
    print(n)
    n += 1
