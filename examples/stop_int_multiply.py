n = 1
while True:
    print(n)
    n *= 1000000007
