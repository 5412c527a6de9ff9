n = 10 ** 36
low = 0
high = n
while low < high:
    middle = (low + high + 1) // 2
    if middle <= n // middle:
        low = middle
    else:
        high = middle - 1
print(low)
