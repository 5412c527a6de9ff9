n = 3
while True:
    print(8 >> n)
    n -= 1
