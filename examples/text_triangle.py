n = 1
row = ""
while n <= 5:
    row += "*"
    print(" " * (5 - n) + row)
    n += 1
