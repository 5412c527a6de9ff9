n = 3
while n:
    n -= 1
else:
    print("done")
print(n)
