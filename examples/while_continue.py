n = 0
while n < 10:
    n += 1
    if n % 3:
        continue
    print(n)
else:
    print("ended")
